define dso_local zeroext i8 @alarm(i8 noundef zeroext %0, i8 noundef zeroext %1) #0 {
  %3 = zext i8 %0 to i32
  %4 = icmp sgt i32 %3, 200
  br i1 %4, label %5, label %9

5:                                                ; preds = %2
  %6 = zext i8 0 to i32
  %7 = add nsw i32 %6, 2
  %8 = trunc i32 %7 to i8
  br label %9

9:                                                ; preds = %5, %2
  %.0 = phi i8 [ %8, %5 ], [ 0, %2 ]
  %10 = zext i8 %0 to i32
  %11 = icmp slt i32 %10, 50
  br i1 %11, label %12, label %16

12:                                               ; preds = %9
  %13 = zext i8 %.0 to i32
  %14 = add nsw i32 %13, 1
  %15 = trunc i32 %14 to i8
  br label %16

16:                                               ; preds = %12, %9
  %.1 = phi i8 [ %15, %12 ], [ %.0, %9 ]
  %17 = zext i8 %1 to i32
  %18 = icmp ne i32 %17, 0
  br i1 %18, label %19, label %23

19:                                               ; preds = %16
  %20 = zext i8 %.1 to i32
  %21 = or i32 %20, 4
  %22 = trunc i32 %21 to i8
  br label %23

23:                                               ; preds = %19, %16
  %.2 = phi i8 [ %22, %19 ], [ %.1, %16 ]
  ret i8 %.2
}

define dso_local signext i16 @speed(i8 noundef signext %0, i8 noundef signext %1) local_unnamed_addr #0 {
  %3 = sext i8 %0 to i32
  %4 = sext i8 %1 to i32
  %5 = sub nsw i32 %3, %4
  %6 = icmp sgt i32 %5, 50
  br i1 %6, label %15, label %7

7:                                                ; preds = %2
  %8 = icmp slt i32 %5, -50
  br i1 %8, label %9, label %12

9:                                                ; preds = %7
  %10 = icmp sgt i8 %1, 90
  %11 = select i1 %10, i16 -120, i16 -100
  br label %15

12:                                               ; preds = %7
  %13 = trunc i32 %5 to i16
  %14 = shl i16 %13, 1
  br label %15

15:                                               ; preds = %2, %12, %9
  %16 = phi i16 [ %14, %12 ], [ 100, %2 ], [ %11, %9 ]
  ret i16 %16
}

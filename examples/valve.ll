define dso_local zeroext range(i8 0, 3) i8 @valve(i8 noundef zeroext range(i8 0, 101) %0, i8 noundef zeroext %1) local_unnamed_addr #0 {
  %3 = icmp ugt i8 %0, 100
  br i1 %3, label %10, label %4

4:                                                ; preds = %2
  %5 = icmp ult i8 %0, 20
  br i1 %5, label %11, label %6

6:                                                ; preds = %4
  %7 = icmp ugt i8 %0, 80
  br i1 %7, label %11, label %8

8:                                                ; preds = %6
  %9 = and i8 %1, 1
  br label %11

10:                                               ; preds = %2
  br label %11

11:                                               ; preds = %10, %8, %6, %4
  %12 = phi i8 [ 2, %10 ], [ 1, %4 ], [ 0, %6 ], [ %9, %8 ]
  ret i8 %12
}

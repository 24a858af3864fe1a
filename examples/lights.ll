; Function Attrs: mustprogress nofree norecurse nosync nounwind readnone uwtable willreturn
define dso_local zeroext i8 @lights(i8 noundef zeroext %0, i8 noundef zeroext %1) local_unnamed_addr #0 {
  switch i8 %0, label %9 [
    i8 0, label %3
    i8 3, label %8
    i8 2, label %5
  ]

3:                                                ; preds = %2
  %4 = lshr i8 %1, 7
  br label %9

5:                                                ; preds = %2
  %6 = icmp eq i8 %1, 0
  %7 = select i1 %6, i8 3, i8 2
  br label %9

8:                                                ; preds = %2
  br label %9

9:                                                ; preds = %2, %8, %5, %3
  %10 = phi i8 [ 0, %8 ], [ %7, %5 ], [ %4, %3 ], [ 2, %2 ]
  ret i8 %10
}

define i8 @f(i8 %x) {
entry:
  %c = icmp eq i8 %x, 77
  br i1 %c, label %heavy, label %end
heavy:
  br label %end
end:
  ret i8 %x
}

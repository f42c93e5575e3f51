; The blocks x and y are a loop that can be entered at either of them.
define void @knot(i1 %c, i1 %d) {
entry:
  br i1 %c, label %x, label %y

x:
  br i1 %d, label %y, label %done

y:
  br i1 %d, label %x, label %done

done:
  ret void
}

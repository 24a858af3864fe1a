"""Functions, tables of their costs, and what the commands answer of them: the rows of tests/commands."""

# A triangle: a block that ends in a branch on %c, one that may be heavy, and the end.
TRIANGLES = {
    "equality": ("i8 @f(i8 %x)", ["%c = icmp eq i8 %x, 77"], "i8 %x"),
    "thrice": ("i32 @m(i32 %x)", ["%m = mul i32 %x, 3", "%c = icmp eq i32 %m, 1"], "i32 %m"),
    "no signed wrap": ("i8 @n(i8 %x)", ["%y = add nsw i8 %x, 1", "%c = icmp slt i8 %y, %x"], "i8 %y"),
    "wraps": ("i8 @n(i8 %x)", ["%y = add i8 %x, 1", "%c = icmp slt i8 %y, %x"], "i8 %y"),
    "poison of the other arm": ("i8 @q(i8 %x)", ["%y = add nsw i8 %x, 1", "%e = icmp eq i8 %x, 127", "%s = select i1 %e, i8 -128, i8 %y", "%c = icmp eq i8 %s, -128"], "i8 %s"),
    "shift by the width": ("i8 @h(i8 %x)", ["%y = shl i8 %x, 8", "%c = icmp eq i8 %y, 0"], "i8 %x"),
    "extended condition": ("i32 @z(i8 %x)", ["%b = icmp eq i8 %x, 5", "%s = sext i1 %b to i32", "%c = icmp slt i32 %s, 0"], "i32 %s"),
    "sum": ("i8 @a(i8 %x, i8 %y)", ["%s = add i8 %x, 200", "%c = icmp ugt i8 %s, 250"], "i8 %x"),
    "sum of 24 bits": ("i8 @a(i8 %x, i8 %y, i8 %z)", ["%s = add i8 %x, 200", "%c = icmp ugt i8 %s, 250"], "i8 %x"),
    "difference": ("i8 @a(i8 %x, i8 %y)", ["%s = sub i8 %x, 200", "%c = icmp ugt i8 %s, 250"], "i8 %x"),
    "range": ("i8 @f(i8 range(i8 0, 10) %x)", ["%c = icmp ugt i8 %x, 20"], "i8 %x"),
    "strict range": ("i8 @f(i8 noundef range(i8 0, 10) %x)", ["%c = icmp ugt i8 %x, 20"], "i8 %x"),
    "range around zero": ("i8 @f(i8 range(i8 -1, 1) %x)", ["%c = icmp eq i8 %x, 255"], "i8 %x"),
    "nonnegative": ("i32 @f(i8 %x)", ["%z = zext nneg i8 %x to i32", "%c = icmp uge i32 %z, 127"], "i32 %z"),
    "narrowed": ("i8 @f(i16 %x)", ["%t = trunc nsw i16 %x to i8", "%c = icmp eq i8 %t, 128"], "i8 %t"),
    "equal signs": ("i8 @f(i8 %x)", ["%c = icmp samesign ugt i8 %x, 126"], "i8 %x"),
    "bits": ("i8 @f(i8 %x)", ["%y = and i8 %x, 15", "%z = xor i8 %y, 9", "%c = icmp eq i8 %z, 15"], "i8 %y"),
    "disjoint bits": ("i8 @f(i8 %x)", ["%o = or disjoint i8 %x, 128", "%c = icmp eq i8 %o, 200"], "i8 %o"),
    "quotient": ("i8 @f(i8 %x)", ["%q = sdiv i8 %x, -3", "%c = icmp eq i8 %q, 42"], "i8 %q"),
    "remainder": ("i8 @f(i8 %x)", ["%r = srem i8 %x, 10", "%c = icmp eq i8 %r, 247"], "i8 %r"),
    "absolute": ("i8 @f(i8 %x)", ["%y = tail call i8 @llvm.abs.i8(i8 %x, i1 false) #3", "%c = icmp ugt i8 %y, 127"], "i8 %y"),
    "strict absolute": ("i8 @f(i8 %x)", ["%y = tail call i8 @llvm.abs.i8(i8 %x, i1 true) #3", "%c = icmp ugt i8 %y, 127"], "i8 %y"),
    "assumed": ("i8 @f(i8 %x)", ["%a = icmp ult i8 %x, 10", "call void @llvm.assume(i1 %a)", "%c = icmp ugt i8 %x, 20"], "i8 %x"),
}

FUNCTIONS = {
    "thresholds": """define i32 @g(i32 %x) {
entry:
  %c = icmp ult i32 %x, 10
  br i1 %c, label %low, label %mid
low:
  br label %mid
mid:
  %d = icmp ugt i32 %x, 4294967294
  br i1 %d, label %high, label %end
high:
  br label %end
end:
  ret i32 0
}
""",
    "unreachable": """define void @u() {
entry:
  unreachable
}
""",
    "branch on poison": """define void @p(i8 %x) {
entry:
  %y = shl i8 %x, 9
  %p = icmp eq i8 %y, 0
  br i1 %p, label %a, label %a
a:
  ret void
}
""",
    "shared targets": """define i8 @s(i8 %x) {
entry:
  switch i8 %x, label %d [ i8 1, label %two i8 2, label %two i8 3, label %d ]
two:
  %t = phi i8 [ 10, %entry ], [ 10, %entry ]
  br label %d
d:
  %r = phi i8 [ %t, %two ], [ %x, %entry ], [ %x, %entry ]
  ret i8 %r
}
""",
    "one entry of two": """define i8 @s(i8 %x) {
entry:
  switch i8 %x, label %d [ i8 1, label %two i8 2, label %two i8 3, label %d ]
two:
  %t = phi i8 [ 10, %entry ]
  br label %d
d:
  %r = phi i8 [ %t, %two ], [ %x, %entry ], [ %x, %entry ]
  ret i8 %r
}
""",
    "poison result": """define i8 @r(i8 %x) {
entry:
  %y = shl i8 %x, 8
  ret i8 %y
}
""",
    "strict result": """define noundef i8 @r(i8 %x) {
entry:
  %y = shl i8 %x, 8
  ret i8 %y
}
""",
    "clamp": """; ModuleID = 'clamp.c'
source_filename = "clamp.c"
target triple = "x86_64-pc-linux-gnu"

; Function Attrs: nounwind
define dso_local i32 @clamp(i32 noundef %0, i32 noundef %1) local_unnamed_addr #0 !dbg !10 {
    #dbg_value(i32 %0, !15, !DIExpression(), !17)
  %3 = icmp sgt i32 %0, 100, !dbg !18
  br i1 %3, label %4, label %6, !dbg !19

4:                                                ; preds = %2
  %5 = sub nsw i32 %0, 100, !dbg !20
  br label %6, !dbg !21

6:                                                ; preds = %4, %2
  %7 = phi i32 [ %5, %4 ], [ %1, %2 ], !dbg !17
  ret i32 %7, !dbg !22
}

declare i32 @puts(ptr)

attributes #0 = { nounwind "frame-pointer"="none" }

!llvm.module.flags = !{!0}
!0 = !{i32 7, !"Dwarf Version", i32 5}
""",
    "loop": """define void @l() {
entry:
  br label %a
a:
  br label %b
b:
  br label %a
}
""",
    "product of variables": """define i8 @f(i8 %x, i8 %y) {
entry:
  %m = mul i8 %x, %y
  ret i8 %m
}
""",
    "defined on one way": """define i8 @f(i8 %x) {
entry:
  %c = icmp eq i8 %x, 0
  br i1 %c, label %a, label %b
a:
  %y = add i8 %x, 1
  br label %b
b:
  ret i8 %y
}
""",
    "call": """define i8 @e(i8 %x) {
entry:
  %y = call i32 @g(i32 %x)
  ret i8 %x
}
""",
    "64 bits": """define i64 @w(i64 %x) {
entry:
  ret i64 %x
}
""",
    "name twice": """define i8 @e(i8 %x) {
x:
  ret i8 %x
}
""",
    "case twice": """define i8 @e(i8 %x) {
entry:
  switch i8 %x, label %a [ i8 -1, label %a i8 255, label %a ]
a:
  ret i8 %x
}
""",
    "trunc to its type": """define i8 @e(i8 %x) {
entry:
  %y = trunc i8 %x to i8
  ret i8 %x
}
""",
    "unreached": """define void @e() {
entry:
  ret void
z:
  ret void
}
""",
    "zero divisor": """define i8 @e(i8 %x) {
entry:
  %q = udiv i8 %x, 0
  ret i8 %x
}
""",
    "variable divisor": """define i8 @e(i8 %x) {
entry:
  %q = udiv i8 %x, %x
  ret i8 %x
}
""",
}

COSTS = {
    "triangle": "wcet costs 1\n%entry 1\n%heavy 4\n%end 1\n",
    "thresholds": "wcet costs 1\n%entry 1\n%low 5\n%mid 1\n%high 7\n%end 1\n",
    "entry at 3": "wcet costs 1\n%entry 3\n",
    "two blocks": "wcet costs 1\n%entry 1\n%a 1\n",
    "shared targets": "wcet costs 1\n%entry 2\n%two 3\n%d 1\n",
    "clamp": "wcet costs 1\n%2 3\n%4 2\n%6 1\n",
    "entry": "wcet costs 1\n%entry 1\n",
    "a block is missing": "wcet costs 1\n%entry 1\n%end 1\n",
    "a leading zero": "wcet costs 1\n%entry 1\n%heavy 04\n%end 1\n",
    "another block": "wcet costs 1\n%entry 1\n%heavy 4\n%end 1\n%other 1\n",
    "a cost twice": "wcet costs 1\n%entry 1\n%heavy 4\n%end 1\n%end 1\n",
    "with an edge": "wcet costs 2\n%entry 1\n%heavy 4\n%end 1\n%entry %end 9\n",
    "an edge back": "wcet costs 2\n%entry 1\n%heavy 4\n%end 1\n%entry %end 9\n%heavy %entry 2\n",
    "an edge in the first version": "wcet costs 1\n%entry 1\n%heavy 4\n%end 1\n%entry %end 9\n",
    "a third version": "wcet costs 3\n%entry 1\n%heavy 4\n%end 1\n%entry %end 9\n",
}

# The function, its costs, the words but for FILE and COSTS, the status, and what is printed, with " / " for a line end.
ROWS = [
    ("equality", "triangle", "analyse f", 0, "exact 6 / args i8 77 / path %entry %heavy %end / result i8 77 / method trial"),
    ("thresholds", "thresholds", "analyse g", 1, "refused too-wide 32"),
    ("thrice", "triangle", "analyse m", 1, "refused too-wide 32"),
    ("thrice", "triangle", "brute m", 1, "refused too-wide 32"),
    ("no signed wrap", "triangle", "analyse n", 0, "exact 2 / args i8 0 / path %entry %end / result i8 1 / method trial"),
    ("no signed wrap", "triangle", "brute n", 0, "exact 2 / args i8 0 / path %entry %end / result i8 1 / method brute"),
    ("no signed wrap", "triangle", "run n 127", 0, "undefined %entry poison-branch"),
    ("wraps", "triangle", "analyse n", 0, "exact 6 / args i8 127 / path %entry %heavy %end / result i8 128 / method trial"),
    ("poison of the other arm", "triangle", "analyse q", 0, "exact 6 / args i8 127 / path %entry %heavy %end / result i8 128 / method trial"),
    ("shift by the width", "triangle", "analyse h", 0, "none / method trial"),
    ("unreachable", "entry at 3", "analyse u", 0, "none / method trial"),
    ("extended condition", "triangle", "analyse z", 0, "exact 6 / args i8 5 / path %entry %heavy %end / result i32 4294967295 / method trial"),
    ("branch on poison", "two blocks", "run p 0", 0, "undefined %entry poison-branch"),
    ("branch on poison", "two blocks", "analyse p", 0, "none / method trial"),
    ("shared targets", "shared targets", "run s 3", 0, "ran 3 / path %entry %d / result i8 3"),
    ("shared targets", "shared targets", "run s 2", 0, "ran 6 / path %entry %two %d / result i8 10"),
    ("shared targets", "shared targets", "analyse s", 0, "exact 6 / args i8 1 / path %entry %two %d / result i8 10 / method trial"),
    ("one entry of two", "shared targets", "analyse s", 1, "refused verify phi-entries %two 0"),
    ("poison result", "entry", "run r 0", 0, "ran 1 / path %entry / result poison"),
    ("strict result", "entry", "run r 0", 0, "undefined %entry poison-return"),
    ("strict result", "entry", "analyse r", 0, "none / method trial"),
    ("clamp", "clamp", "run clamp 150 9", 0, "ran 6 / path %2 %4 %6 / result i32 50"),
    ("clamp", "clamp", "analyse clamp", 1, "refused too-wide 64"),
    ("loop", "entry", "analyse l", 1, "refused verify loop %a %b"),
    ("product of variables", "entry", "analyse f", 1, "refused verify not-linear %entry 0"),
    ("defined on one way", "entry", "analyse f", 1, "refused verify not-defined %b 0 path %entry %b"),
    ("equality", "a block is missing", "analyse f", 1, "refused costs missing %heavy"),
    ("call", "entry", "analyse e", 1, "refused read line 3 not-in-profile @g"),
    ("64 bits", "entry", "analyse w", 1, "refused read line 1 bad-width i64"),
    ("equality", "triangle", "analyse nope", 1, "refused read no-function"),
    ("equality", "triangle", "run f 256", 1, "refused bad-args 0"),
    ("equality", "triangle", "run f", 1, "refused bad-args 0"),
    ("equality", "triangle", "run f 1 2", 1, "refused bad-args 1"),
    ("sum", "triangle", "analyse a", 0, "exact 6 / args i8 51 i8 0 / path %entry %heavy %end / result i8 51 / method trial"),
    ("sum of 24 bits", "triangle", "analyse a", 1, "refused too-wide 24"),
    ("difference", "triangle", "analyse a", 0, "exact 6 / args i8 195 i8 0 / path %entry %heavy %end / result i8 195 / method trial"),
    ("name twice", "entry", "analyse e", 1, "refused verify name-twice %x"),
    ("case twice", "entry", "analyse e", 1, "refused verify duplicate-case %entry 0 255"),
    ("trunc to its type", "entry", "analyse e", 1, "refused verify type-differs %entry 0"),
    ("unreached", "entry", "analyse e", 1, "refused verify unreached %z"),
    ("equality", "a leading zero", "analyse f", 1, "refused costs bad-line 3"),
    ("equality", "another block", "analyse f", 1, "refused costs unknown-block 5"),
    ("equality", "a cost twice", "analyse f", 1, "refused costs cost-twice 5"),
    ("equality", "with an edge", "brute f", 0, "exact 11 / args i8 0 / path %entry %end / result i8 0 / method brute"),
    ("equality", "with an edge", "analyse f", 0, "exact 11 / args i8 0 / path %entry %end / result i8 0 / method trial"),
    ("equality", "an edge back", "analyse f", 1, "refused costs unknown-edge 6"),
    ("equality", "an edge in the first version", "analyse f", 1, "refused costs bad-line 5"),
    ("equality", "a third version", "analyse f", 1, "refused costs bad-line 1"),
    ("range", "triangle", "analyse f", 0, "exact 2 / args i8 0 / path %entry %end / result i8 0 / method trial"),
    ("range", "triangle", "brute f", 0, "exact 2 / args i8 0 / path %entry %end / result i8 0 / method brute"),
    ("range", "triangle", "run f 10", 0, "undefined %entry poison-branch"),
    ("strict range", "triangle", "run f 10", 0, "undefined %entry poison-argument"),
    ("range around zero", "triangle", "analyse f", 0, "exact 6 / args i8 255 / path %entry %heavy %end / result i8 255 / method trial"),
    ("nonnegative", "triangle", "analyse f", 0, "exact 6 / args i8 127 / path %entry %heavy %end / result i32 127 / method trial"),
    ("narrowed", "triangle", "analyse f", 0, "exact 6 / args i16 65408 / path %entry %heavy %end / result i8 128 / method trial"),
    ("equal signs", "triangle", "analyse f", 0, "exact 6 / args i8 127 / path %entry %heavy %end / result i8 127 / method trial"),
    ("equal signs", "triangle", "run f 200", 0, "undefined %entry poison-branch"),
    ("bits", "triangle", "brute f", 0, "exact 6 / args i8 6 / path %entry %heavy %end / result i8 6 / method brute"),
    ("bits", "triangle", "analyse f", 0, "exact 6 / args i8 6 / path %entry %heavy %end / result i8 6 / method trial"),
    ("disjoint bits", "triangle", "analyse f", 0, "exact 6 / args i8 72 / path %entry %heavy %end / result i8 200 / method trial"),
    ("disjoint bits", "triangle", "run f 200", 0, "undefined %entry poison-branch"),
    ("quotient", "triangle", "brute f", 0, "exact 6 / args i8 128 / path %entry %heavy %end / result i8 42 / method brute"),
    ("quotient", "triangle", "analyse f", 0, "exact 6 / args i8 128 / path %entry %heavy %end / result i8 42 / method trial"),
    ("quotient", "triangle", "run f 7", 0, "ran 2 / path %entry %end / result i8 254"),
    ("remainder", "triangle", "brute f", 0, "exact 6 / args i8 137 / path %entry %heavy %end / result i8 247 / method brute"),
    ("remainder", "triangle", "analyse f", 0, "exact 6 / args i8 137 / path %entry %heavy %end / result i8 247 / method trial"),
    ("absolute", "triangle", "analyse f", 0, "exact 6 / args i8 128 / path %entry %heavy %end / result i8 128 / method trial"),
    ("strict absolute", "triangle", "analyse f", 0, "exact 2 / args i8 0 / path %entry %end / result i8 0 / method trial"),
    ("assumed", "triangle", "analyse f", 0, "exact 2 / args i8 0 / path %entry %end / result i8 0 / method trial"),
    ("assumed", "triangle", "run f 30", 0, "undefined %entry false-assume"),
    ("zero divisor", "entry", "analyse e", 1, "refused verify bad-divisor %entry 0"),
    ("variable divisor", "entry", "analyse e", 1, "refused verify not-linear %entry 0"),
]


def triangle(head, lines, value):
    """The text of a triangle."""
    body = "".join(f"  {line}\n" for line in lines)
    return (
        f"define {head} {{\nentry:\n{body}  br i1 %c, label %heavy, label %end\n"
        f"heavy:\n  br label %end\nend:\n  ret {value}\n}}\n"
    )


TEXTS = FUNCTIONS | {name: triangle(*parts) for name, parts in TRIANGLES.items()}

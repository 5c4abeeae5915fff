;; The loop of turns.c.
(module
  (func (export "loop") (result i32)
    (local $i i32) (local $s i32) (local $t i32)
    (block $done
      (loop $again
        (br_if $done (i32.ge_s (local.get $i) (i32.const 9999998)))
        (local.set $s (i32.rem_s (i32.add (local.get $s) (local.get $i)) (i32.const 7)))
        (if (i32.gt_s (local.get $s) (i32.const 3))
          (then (local.set $t (i32.add (local.get $t) (i32.const 1)))))
        (local.set $i (i32.add (local.get $i) (i32.const 1)))
        (br $again)))
    (local.get $t)))

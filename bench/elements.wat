;; The loop of elements.c.
(module
  (memory 1)
  (func (export "loop") (result i32)
    (local $i i32) (local $k i32) (local $s i32)
    (block $done
      (loop $again
        (br_if $done (i32.ge_s (local.get $i) (i32.const 5000000)))
        (i32.store (i32.mul (local.get $k) (i32.const 4)) (i32.add (local.get $s) (local.get $i)))
        (local.set $k (i32.add (local.get $k) (i32.const 1)))
        (if (i32.eq (local.get $k) (i32.const 1000))
          (then (local.set $k (i32.const 0))))
        (local.set $s
          (i32.rem_s (i32.add (local.get $s) (i32.load (i32.mul (local.get $k) (i32.const 4)))) (i32.const 1000)))
        (local.set $i (i32.add (local.get $i) (i32.const 1)))
        (br $again)))
    (local.get $s)))

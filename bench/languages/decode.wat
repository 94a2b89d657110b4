;; The job of the image "240 bytes decoded" (bench/src/images/decode.rs) for WebAssembly, which wasm2c turns into C. Each
;; function and each turn of a loop pays for its instructions from the fuel and stops where there is none, as a compiler for
;; untrusted modules writes it. sandbox.c calls it.
(module
  (memory (export "memory") 1)
  ;; Fuel, the length of the frame, which stands at 0, and what is left: the greatest byte, the sum, how many were printed.
  (global $fuel (export "fuel") (mut i32) (i32.const 0))
  (global $length (export "length") (mut i32) (i32.const 0))
  (global $greatest (export "greatest") (mut i32) (i32.const 0))
  (global $sum (export "sum") (mut i32) (i32.const 0))
  (global $prints (export "prints") (mut i32) (i32.const 0))
  ;; The watch that is hung on the decoder, by its place in the table.
  (global $watch (export "watch") (mut i32) (i32.const 0))
  (type $watches (func (param i32)))
  (table 2 funcref)
  (elem (i32.const 0) $honest $harmful)

  (func $pay (param $price i32)
    (global.set $fuel (i32.sub (global.get $fuel) (local.get $price)))
    (if (i32.lt_s (global.get $fuel) (i32.const 0)) (then unreachable)))

  ;; Prints the bytes below 12, behind byte 4096.
  (func $honest (param $byte i32)
    (call $pay (i32.const 3))
    (if (i32.lt_s (local.get $byte) (i32.const 12))
      (then
        (call $pay (i32.const 8))
        (i32.store offset=4096 (i32.mul (global.get $prints) (i32.const 4)) (local.get $byte))
        (global.set $prints (i32.add (global.get $prints) (i32.const 1))))))

  ;; A watch that changes the sum of the decoder.
  (func $harmful (param $byte i32)
    (call $pay (i32.const 2))
    (global.set $sum (i32.const 0)))

  ;; Keeps the greatest byte, adds all up and shows each to the watch.
  (func (export "decode")
    (local $i i32) (local $byte i32)
    (call $pay (i32.const 8))
    (global.set $greatest (i32.const 0))
    (global.set $sum (i32.const 0))
    (global.set $prints (i32.const 0))
    (block $end
      (loop $next
        (call $pay (i32.const 20))
        (br_if $end (i32.ge_s (local.get $i) (global.get $length)))
        (local.set $byte (i32.load8_u (local.get $i)))
        (if (i32.lt_s (global.get $greatest) (local.get $byte))
          (then (global.set $greatest (local.get $byte))))
        (global.set $sum (i32.add (global.get $sum) (local.get $byte)))
        (call_indirect (type $watches) (local.get $byte) (global.get $watch))
        (local.set $i (i32.add (local.get $i) (i32.const 1)))
        (br $next)))))

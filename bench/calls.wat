(module (func $f (param i64) (result i64)
  local.get 0 i64.const 2 i64.lt_u if (result i64) local.get 0 else
   local.get 0 i64.const 1 i64.sub call $f local.get 0 i64.const 2 i64.sub call $f i64.add end)
 (func (export "run") (result i64) i64.const 33 call $f))

(module (memory 1) (func $run (param i64) (result i64) (local i64 i32)
  local.get 0 i32.wrap_i64 local.set 2
  loop
   local.get 2 i32.const 65528 i32.and local.get 0 i64.store
   local.get 1 local.get 2 i32.const 65528 i32.and i64.load i64.add local.set 1
   local.get 2 i32.const 1 i32.sub local.tee 2 br_if 0
  end
  local.get 1)
 (func (export "run") (result i64) i64.const 10000000 call $run))

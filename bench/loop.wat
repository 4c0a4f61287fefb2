(module (func (export "run") (result i64) (local i64 i64) 
  i64.const 20000000 local.set 0
  loop
   local.get 1 local.get 0 i64.add local.set 1
   local.get 0 i64.const 1 i64.sub local.tee 0 i64.eqz i32.eqz br_if 0
  end
  local.get 1))

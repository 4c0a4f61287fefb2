(module
(type (func (param i64 i64) (result i64)))
(type (func (result i64)))
(func (type 1) i64.const 7)
(table 0 0 funcref)
(memory 64 64)
(global (mut i32) i32.const 0)
(export "init" (func 0))
)

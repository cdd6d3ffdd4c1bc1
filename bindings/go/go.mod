// The owner's host takes the place of llbm.example, a name that nobody has; until then `replace` leads to a folder. The tags of
// versions are bindings/go/v1.0.0 and bindings/go/llbmtest/v1.0.0.
module llbm.example/llbm/bindings/go

go 1.21

module story

go 1.19

require hlcstore v0.0.0

replace hlcstore => ../../bindings/go

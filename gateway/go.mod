module pathd/gateway

go 1.19

require (
	github.com/golang/protobuf v1.5.2
	golang.org/x/net v0.7.0
	google.golang.org/grpc v1.33.3
	google.golang.org/protobuf v1.28.1
	pathd v1.0.0-rc1
)

replace pathd => ../clients/go

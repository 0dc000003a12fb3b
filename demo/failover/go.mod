module example.org/truetime/demo/failover

go 1.19

require example.org/truetime/clients/go/truetime v0.0.0

replace example.org/truetime/clients/go/truetime => ../../clients/go/truetime

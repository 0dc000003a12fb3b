module example.org/truetime/clients/go/truetime

go 1.19

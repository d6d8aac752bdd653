module hlcstore

go 1.19

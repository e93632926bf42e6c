module keyset

go 1.19

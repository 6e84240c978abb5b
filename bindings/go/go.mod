module egw

go 1.19

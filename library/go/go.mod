module flagops

go 1.19

module heskavo

go 1.19

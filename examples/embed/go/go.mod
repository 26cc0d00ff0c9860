module heskavo/agent

go 1.19

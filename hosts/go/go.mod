module wormweekly.example/wormweekly

go 1.19

module wireguard-queue

go 1.18

require (
	golang.org/x/sys v0.5.0
	golang.zx2c4.com/wireguard v0.0.0
	qtree v0.0.0
)

require (
	golang.org/x/crypto v0.0.0 // indirect
	golang.org/x/net v0.3.0 // indirect
)

// Debian's golang-golang.zx2c4-wireguard-dev puts the sources there.
replace (
	golang.org/x/crypto => /usr/share/gocode/src/golang.org/x/crypto
	golang.org/x/net => /usr/share/gocode/src/golang.org/x/net
	golang.org/x/sys => /usr/share/gocode/src/golang.org/x/sys
	golang.zx2c4.com/wireguard => /usr/share/gocode/src/golang.zx2c4.com/wireguard
	qtree => ../../embed/go
)

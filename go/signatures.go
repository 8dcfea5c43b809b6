package garvoeng

import (
	"crypto"
	"crypto/ecdsa"
	"crypto/ed25519"
	"crypto/elliptic"
	"crypto/rsa"
	"crypto/sha256"
	"math/big"
)

// IsValid verifies a signature with Go's own crypto packages. If the key is not a point of its curve, no signature is valid.
func IsValid(key Key, message, signature []byte) bool {
	hash := sha256.Sum256(message)
	switch key.Algorithm {
	case ES256:
		curve, x, y := elliptic.P256(), new(big.Int).SetBytes(key.X), new(big.Int).SetBytes(key.Y)
		return curve.IsOnCurve(x, y) && ecdsa.VerifyASN1(&ecdsa.PublicKey{Curve: curve, X: x, Y: y}, hash[:], signature)
	case EdDSA:
		return len(key.X) == ed25519.PublicKeySize && ed25519.Verify(ed25519.PublicKey(key.X), message, signature)
	case RS256:
		exponent := new(big.Int).SetBytes(key.Y)
		if exponent.BitLen() > 31 {
			return false
		}
		public := rsa.PublicKey{N: new(big.Int).SetBytes(key.X), E: int(exponent.Int64())}
		return rsa.VerifyPKCS1v15(&public, crypto.SHA256, hash[:], signature) == nil
	}
	return false
}

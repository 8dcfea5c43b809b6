package garvoeng

import (
	"crypto/ecdsa"
	"crypto/elliptic"
	"crypto/rand"
	"crypto/sha256"
	"encoding/binary"
	"encoding/json"
	"errors"
	"reflect"
	"strings"
	"sync"
	"testing"
	"time"
)

const origin = "https://example.com"

func serving(t *testing.T, config Config) *Server {
	server, err := NewServer("example.com", []string{origin}, config)
	if err != nil {
		t.Fatal(err)
	}
	return server
}

// A browser and its authenticator.
type device struct {
	key   *ecdsa.PrivateKey
	id    []byte
	count uint32
}

func newDevice(t *testing.T) *device {
	key, err := ecdsa.GenerateKey(elliptic.P256(), rand.Reader)
	if err != nil {
		t.Fatal(err)
	}
	return &device{key: key, id: []byte("credential of 22 bytes")}
}

func (d *device) authData(flags byte, attested []byte) []byte {
	hash := sha256.Sum256([]byte("example.com"))
	data := append(hash[:], flags, 0, 0, 0, 0)
	binary.BigEndian.PutUint32(data[33:], d.count)
	return append(data, attested...)
}

func clientData(kind string, challenge Bytes) []byte {
	text, _ := json.Marshal(map[string]any{"type": kind, "challenge": challenge, "origin": origin, "crossOrigin": false})
	return text
}

func (d *device) response(parts map[string]any) map[string]any {
	id := toText(d.id)
	return map[string]any{"id": id, "rawId": id, "type": "public-key", "clientExtensionResults": map[string]any{}, "response": parts}
}

func (d *device) register(options *CreationOptions) map[string]any {
	x, y := d.key.X.FillBytes(make([]byte, 32)), d.key.Y.FillBytes(make([]byte, 32))
	attested := append(make([]byte, 16), 0, byte(len(d.id)))
	attested = append(append(attested, d.id...), 0xa5, 1, 2, 3, 0x26, 0x20, 1, 0x21, 0x58, 32)
	attested = append(append(append(attested, x...), 0x22, 0x58, 32), y...)
	data := d.authData(0x45, attested)
	object := append([]byte("\xa3cfmtdnonegattStmt\xa0hauthData\x58"), byte(len(data)))
	return d.response(map[string]any{
		"clientDataJSON": Bytes(clientData("webauthn.create", options.Challenge)), "attestationObject": Bytes(append(object, data...)),
		"transports": []any{"usb", "internal", 7, "NO TRANSPORT"},
	})
}

func (d *device) signIn(options *RequestOptions, user []byte) map[string]any {
	d.count++
	data, client := d.authData(0x05, nil), clientData("webauthn.get", options.Challenge)
	hash := sha256.Sum256(client)
	message := sha256.Sum256(append(append([]byte{}, data...), hash[:]...))
	signature, err := ecdsa.SignASN1(rand.Reader, d.key, message[:])
	if err != nil {
		panic(err)
	}
	return d.response(map[string]any{"clientDataJSON": Bytes(client), "authenticatorData": Bytes(data), "signature": Bytes(signature), "userHandle": Bytes(user)})
}

func written(t *testing.T, value any) []byte {
	text, err := json.Marshal(value)
	if err != nil {
		t.Fatal(err)
	}
	return text
}

func free([]byte) (bool, error) { return false, nil }

func registeredBy(t *testing.T, server *Server, d *device) *Registered {
	options, session, err := server.RegisterBegin([]byte("account 7"), "name", RegisterOptions{})
	if err != nil {
		t.Fatal(err)
	}
	made, err := server.RegisterComplete(session, written(t, d.register(options)), free)
	if err != nil {
		t.Fatal(err)
	}
	return made
}

func finds(credential *Credential) func([]byte) (*Credential, error) {
	return func([]byte) (*Credential, error) { return credential, nil }
}

func TestRegistrationAndSignIn(t *testing.T) {
	server, d := serving(t, Config{}), newDevice(t)
	made := registeredBy(t, server, d)
	credential := made.Credential
	if made.Format != "none" || !made.UserVerified || made.BackedUp || string(credential.ID) != string(d.id) || string(credential.User) != "account 7" ||
		!reflect.DeepEqual(credential.Transports, []string{"usb", "internal"}) || credential.Algorithm != ES256 || *credential.Eligible {
		t.Fatalf("%+v", made)
	}
	options, session, err := server.AuthenticateBegin(AuthenticateOptions{Allow: []Credential{credential}, User: []byte("account 7")})
	if err != nil {
		t.Fatal(err)
	}
	// A session as it was kept.
	var kept SignInSession
	if err := json.Unmarshal(written(t, session), &kept); err != nil || !reflect.DeepEqual(&kept, session) {
		t.Fatal(err, kept)
	}
	response := written(t, d.signIn(options, []byte("account 7")))
	signedIn, err := server.AuthenticateComplete(&kept, response, finds(&credential))
	if err != nil || signedIn.Credential.SignCount != 1 || signedIn.Before.SignCount != 0 || signedIn.Credential.Retired {
		t.Fatal(err, signedIn)
	}
	for _, one := range []struct {
		session *SignInSession
		find    func([]byte) (*Credential, error)
		answer  string
	}{
		{nil, finds(&credential), "W1"}, {&kept, finds(nil), "W3"}, {&kept, finds(&signedIn.Credential), "W15"},
		{&SignInSession{Challenge: make(Bytes, 32)}, finds(&credential), "W7"},
		{&SignInSession{Challenge: kept.Challenge, Allow: []Bytes{{1}}}, finds(&credential), "W2"},
		{&SignInSession{Challenge: kept.Challenge, User: Bytes("account 8")}, finds(&credential), "W4"},
		{&SignInSession{Challenge: kept.Challenge[:31]}, finds(&credential), textOf(false, 103)},
	} {
		if _, err := server.AuthenticateComplete(one.session, response, one.find); answerOf(err) != one.answer {
			t.Error(one.answer, err)
		}
	}
	retired := credential
	retired.Retired = true
	if _, err := server.AuthenticateComplete(&kept, response, finds(&retired)); answerOf(err) != "W3" {
		t.Error(err)
	}
}

func TestHostsErrors(t *testing.T) {
	server, d := serving(t, Config{}), newDevice(t)
	credential := registeredBy(t, server, d).Credential
	options, session, _ := server.AuthenticateBegin(AuthenticateOptions{})
	response := written(t, d.signIn(options, []byte("account 7")))
	failure := errors.New("the database is away")
	if _, err := server.AuthenticateComplete(session, response, func([]byte) (*Credential, error) { return &credential, failure }); err != failure {
		t.Error(err)
	}
	asked, begun, _ := server.RegisterBegin([]byte("account 7"), "name", RegisterOptions{})
	if _, err := server.RegisterComplete(begun, written(t, d.register(asked)), func([]byte) (bool, error) { return false, failure }); err != failure {
		t.Error(err)
	}
	if _, err := server.RegisterComplete(begun, written(t, d.register(asked)), func([]byte) (bool, error) { return true, nil }); answerOf(err) != "G15" {
		t.Error(err)
	}
	for _, damaged := range []Key{{}, {Algorithm: -9, X: credential.X, Y: credential.Y}, {Algorithm: ES256, X: credential.X[:31], Y: credential.Y}, {Algorithm: RS256, X: credential.X, Y: credential.Y}} {
		row := credential
		row.Key = damaged
		var of *RowDamaged
		if _, err := server.AuthenticateComplete(session, response, finds(&row)); !errors.As(err, &of) || string(of.ID) != string(d.id) {
			t.Error(damaged, err)
		}
	}
	// What a verify keeps or changes is its own.
	var kept [][]byte
	changing := serving(t, Config{Verify: func(key Key, message, signature []byte) bool {
		kept = append(kept, key.X, message, signature)
		for _, value := range kept {
			for at := range value {
				value[at] = 0
			}
		}
		return true
	}})
	if made, err := changing.AuthenticateComplete(session, response, finds(&credential)); err != nil || made.Credential.X[0] != credential.X[0] {
		t.Error(err)
	}
}

// Names that differ by case, second spellings of bytes, and texts that are no response.
func TestOtherSpellings(t *testing.T) {
	server, d := serving(t, Config{}), newDevice(t)
	credential := registeredBy(t, server, d).Credential
	options, session, _ := server.AuthenticateBegin(AuthenticateOptions{})
	response := string(written(t, d.signIn(options, []byte("account 7"))))
	text := toText(d.id)
	for _, change := range [][2]string{
		{`"rawId"`, `"rawID"`}, {`"response"`, `"Response"`}, {`"signature"`, `"Signature"`}, {`"id"`, `"ID"`}, {`"` + text + `"`, `"` + text + `="`},
		{`"` + text + `"`, `"` + text[:4] + `\n` + text[4:] + `"`}, {`"` + text + `"`, `"` + text[:4] + `\r` + text[4:] + `"`},
		{`"type":"public-key"`, `"type":"Public-Key"`}, {`"clientExtensionResults":{}`, `"clientExtensionResults":null`},
	} {
		other := strings.ReplaceAll(response, change[0], change[1])
		var bad *BadInput
		if _, err := server.AuthenticateComplete(session, []byte(other), finds(&credential)); other == response || !errors.As(err, &bad) {
			t.Error(change, err)
		}
	}
	for _, text := range []string{"", "null", "[]", "7", `"x"`, "{", response + "x", strings.Repeat("[", 100_000), strings.Repeat(`{"response":`, 20_000)} {
		if _, err := server.AuthenticateComplete(session, []byte(text), finds(&credential)); answerOf(err) != "response is missing" {
			t.Error(text[:min(len(text), 20)], err)
		}
	}
	for _, text := range []string{`{}`, `null`, `[]`, `{"challenge":"AA","user":null,"allow":null,"user_verification":false}`, `{"Challenge":"AA","user":null,"allow":[],"user_verification":false}`, `{"challenge":"AB","user":null,"allow":[],"user_verification":false}`} {
		var read SignInSession
		if err := json.Unmarshal([]byte(text), &read); err == nil {
			t.Error(text)
		}
	}
	var read RegistrationSession
	if err := json.Unmarshal([]byte(`{"challenge":"AA","user":"AA","user_verification":true,"algorithms":[-7]}`), &read); err != nil || !read.Attestation {
		t.Error(err, read)
	}
}

func min(a, b int) int {
	if a < b {
		return a
	}
	return b
}

func TestLimits(t *testing.T) {
	for _, rpID := range []string{"", "Example.com", "https://example.com", "example.com:80", "127.0.0.1", "a..b", strings.Repeat("a", 254)} {
		if _, err := NewServer(rpID, []string{origin}, Config{}); err == nil {
			t.Error(rpID)
		}
	}
	for _, origins := range [][]string{nil, {"https://example.org"}, {"https://Example.com"}, {"https://example.com/"}, {"https://example.com:443"}, {"https://example.com:70000"}, {"https://notexample.com"}} {
		if _, err := NewServer("example.com", origins, Config{}); err == nil {
			t.Error(origins)
		}
	}
	other := Profile(3)
	for _, config := range []Config{{RefuseNone: true, RefuseSelf: true}, {Profile: &other}, {TopOrigins: []string{"x"}}, {RPName: "\xff"}} {
		if _, err := NewServer("example.com", []string{origin}, config); err == nil {
			t.Error(config)
		}
	}
	server := serving(t, Config{})
	long := make([]Credential, 65)
	for _, how := range []RegisterOptions{
		{Algorithms: []Algorithm{0}}, {UserVerification: "always"}, {ResidentKey: "x"}, {AuthenticatorAttachment: "x"}, {Attestation: "x"},
		{Timeout: -time.Second}, {Timeout: time.Microsecond}, {Hints: []string{"x"}}, {Exclude: long}, {Exclude: make([]Credential, 1)},
	} {
		if _, _, err := server.RegisterBegin([]byte{1}, "name", how); err == nil {
			t.Error(how)
		}
	}
	for _, user := range [][]byte{nil, {}, make([]byte, 65)} {
		if _, _, err := server.RegisterBegin(user, "name", RegisterOptions{}); err == nil {
			t.Error(user)
		}
	}
	for _, how := range []AuthenticateOptions{{User: []byte{}}, {User: make([]byte, 65)}, {Allow: long}, {UserVerification: "x"}, {Hints: []string{"x"}}, {Timeout: 1e18}} {
		if _, _, err := server.AuthenticateBegin(how); err == nil {
			t.Error(how)
		}
	}
	none := serving(t, Config{RefuseNone: true})
	options, session, _ := none.RegisterBegin([]byte{1}, "name", RegisterOptions{})
	if _, err := none.RegisterComplete(session, written(t, newDevice(t).register(options)), free); answerOf(err) != "G14" {
		t.Error(err)
	}
}

func TestGoroutines(t *testing.T) {
	server := serving(t, Config{})
	var group sync.WaitGroup
	for worker := 0; worker < 8; worker++ {
		group.Add(1)
		go func() {
			defer group.Done()
			d := newDevice(t)
			credential := registeredBy(t, server, d).Credential
			for turn := 0; turn < 50; turn++ {
				options, session, _ := server.AuthenticateBegin(AuthenticateOptions{})
				made, err := server.AuthenticateComplete(session, written(t, d.signIn(options, []byte("account 7"))), finds(&credential))
				if err != nil {
					t.Error(err)
					return
				}
				credential = made.Credential
			}
		}()
	}
	group.Wait()
}

func BenchmarkSignInWithoutMathematics(b *testing.B) {
	server, _ := NewServer("example.com", []string{origin}, Config{Verify: func(Key, []byte, []byte) bool { return true }})
	d := &device{id: []byte("credential of 22 bytes")}
	d.key, _ = ecdsa.GenerateKey(elliptic.P256(), rand.Reader)
	asked, begun, _ := server.RegisterBegin([]byte{1}, "name", RegisterOptions{})
	text, _ := json.Marshal(d.register(asked))
	made, err := server.RegisterComplete(begun, text, free)
	if err != nil {
		b.Fatal(err)
	}
	options, session, _ := server.AuthenticateBegin(AuthenticateOptions{})
	response, _ := json.Marshal(d.signIn(options, []byte{1}))
	b.ResetTimer()
	for turn := 0; turn < b.N; turn++ {
		if _, err := server.AuthenticateComplete(session, response, finds(&made.Credential)); err != nil {
			b.Fatal(err)
		}
	}
}

func TestKeys(t *testing.T) {
	d := newDevice(t)
	credential := registeredBy(t, serving(t, Config{}), d).Credential
	cose := append([]byte{0xa5, 1, 2, 3, 0x26, 0x20, 1, 0x21, 0x58, 32}, credential.X...)
	cose = append(append(cose, 0x22, 0x58, 32), credential.Y...)
	if key, err := KeyFromCOSE(cose); err != nil || !reflect.DeepEqual(key, credential.Key) {
		t.Error(err, key)
	}
	for _, other := range [][]byte{nil, {}, cose[:len(cose)-1], append(cose, 0)} {
		if _, err := KeyFromCOSE(other); err == nil {
			t.Error(other)
		}
	}
	if Version() < 0 {
		t.Error(Version())
	}
}

// A whole site over the lines of site_program, in Go: go run site.go ADDRESS PROGRAM FILE OPTION.., for example
// go run site.go localhost:8080 dist/passkey-site site.db --rp-id localhost --origin http://localhost:8080
// Its page registers a passkey and signs in. A browser needs PublicKeyCredential.parseCreationOptionsFromJSON.
package main

import (
	"bufio"
	"bytes"
	"crypto"
	"crypto/ecdsa"
	"crypto/ed25519"
	"crypto/elliptic"
	"crypto/hmac"
	"crypto/rand"
	"crypto/rsa"
	"crypto/sha256"
	"encoding/base64"
	"encoding/json"
	"errors"
	"fmt"
	"io"
	"log"
	"math"
	"math/big"
	"net"
	"net/http"
	"os"
	"os/exec"
	"strconv"
	"strings"
	"sync"
	"time"
)

type object map[string]interface{}

// The JSON object in a text, with numbers as they are written.
func parsed(text []byte) (object, error) {
	found := object{}
	decoder := json.NewDecoder(bytes.NewReader(text))
	decoder.UseNumber()
	return found, decoder.Decode(&found)
}

func bytesOf(asked object, name string) []byte {
	text, _ := asked[name].(string)
	found, _ := base64.RawURLEncoding.DecodeString(text)
	return found
}

func number(bytes []byte) *big.Int {
	return new(big.Int).SetBytes(bytes)
}

func isValid(asked object) bool {
	x, y := bytesOf(asked, "x"), bytesOf(asked, "y")
	message, signature := bytesOf(asked, "message"), bytesOf(asked, "signature")
	hash := sha256.Sum256(message)
	switch asked["algorithm"] {
	case json.Number("-7"):
		key := ecdsa.PublicKey{Curve: elliptic.P256(), X: number(x), Y: number(y)}
		return key.Curve.IsOnCurve(key.X, key.Y) && ecdsa.VerifyASN1(&key, hash[:], signature)
	case json.Number("-8"):
		return len(x) == ed25519.PublicKeySize && ed25519.Verify(x, message, signature)
	case json.Number("-257"):
		key := rsa.PublicKey{N: number(x), E: int(number(y).Int64())}
		return rsa.VerifyPKCS1v15(&key, crypto.SHA256, hash[:], signature) == nil
	}
	return false
}

var errEnded = errors.New("the program has ended")

// A run of the program, and the calls that wait for its answers, which come in the order of the lines.
type run struct {
	command *exec.Cmd
	in      io.WriteCloser
	asked   []chan object
	ended   bool
}

type site struct {
	words   []string
	writing sync.Mutex
	state   sync.Mutex
	running *run
	number  int
	limit   limit
}

// Starts the program if it does not run. If it ends, its open calls fail: they may or may not be done.
func (s *site) start() (*run, error) {
	s.state.Lock()
	defer s.state.Unlock()
	if s.running != nil && !s.running.ended {
		return s.running, nil
	}
	now := &run{command: exec.Command(s.words[0], s.words[1:]...)}
	now.command.Stderr = os.Stderr
	out, err := now.command.StdoutPipe()
	if err == nil {
		now.in, err = now.command.StdinPipe()
	}
	if err == nil {
		err = now.command.Start()
	}
	if err != nil {
		return nil, err
	}
	s.running = now
	go s.read(now, bufio.NewReader(out))
	return now, nil
}

// Gives each answer to the call that asked first.
func (s *site) read(now *run, out *bufio.Reader) {
	for {
		line, err := out.ReadBytes('\n')
		answer, wrong := parsed(line)
		s.state.Lock()
		if err != nil || wrong != nil || len(now.asked) == 0 {
			break
		}
		now.asked[0] <- answer
		now.asked = now.asked[1:]
		s.state.Unlock()
	}
	now.command.Process.Kill()
	now.command.Wait()
	now.ended = true
	for _, waiting := range now.asked {
		close(waiting)
	}
	s.state.Unlock()
}

func (s *site) write(act string, members object) (*run, chan object, error) {
	s.writing.Lock()
	defer s.writing.Unlock()
	now, err := s.start()
	if err != nil {
		return nil, nil, err
	}
	s.number++
	line := object{"id": s.number, "act": act}
	for name, value := range members {
		line[name] = value
	}
	waiting := make(chan object, 1)
	s.state.Lock()
	if now.ended {
		s.state.Unlock()
		return nil, nil, errEnded
	}
	now.asked = append(now.asked, waiting)
	s.state.Unlock()
	if json.NewEncoder(now.in).Encode(line) != nil {
		now.command.Process.Kill()
	}
	return now, waiting, nil
}

// Returns the answer to an act. After an error the act may or may not be done, and the next call starts the program again.
func (s *site) ask(act string, members object) (object, error) {
	now, waiting, err := s.write(act, members)
	if err != nil {
		return nil, err
	}
	timer := time.AfterFunc(30*time.Second, func() { now.command.Process.Kill() })
	defer timer.Stop()
	answer, is := <-waiting
	if !is {
		return nil, errEnded
	}
	if failed, is := answer["failed"]; is {
		now.command.Process.Kill()
		return nil, fmt.Errorf("%v", failed)
	}
	return answer, nil
}

// Returns the verdict on a response: accepted, refused or error. A wrong signature is reported too, so that it is refused and logged.
func (s *site) finish(act string, session, response interface{}) (object, error) {
	members := object{"session": session, "response": response}
	answer, err := s.ask(act, members)
	if err != nil {
		return nil, err
	}
	asked, is := answer["verify"].(map[string]interface{})
	if !is {
		return answer, nil
	}
	members["verified"] = false
	if isValid(asked) {
		members["verified"] = asked
	}
	return s.ask(act, members)
}

// A session goes only to its visitor, in a cookie: the program has sealed it. Another cookie, signed here, says who signed in, for the
// site's other pages.
var secret = random(32)

func random(size int) []byte {
	found := make([]byte, size)
	if _, err := rand.Read(found); err != nil {
		panic(err)
	}
	return found
}

func code(text string) string {
	sum := hmac.New(sha256.New, secret)
	sum.Write([]byte(text))
	return base64.RawURLEncoding.EncodeToString(sum.Sum(nil))
}

func keep(out http.ResponseWriter, name, value string) {
	http.SetCookie(out, &http.Cookie{Name: name, Value: value, Path: "/", HttpOnly: true, SameSite: http.SameSiteStrictMode})
}

func found(request *http.Request, name string) string {
	cookie, err := request.Cookie(name)
	if err != nil {
		return ""
	}
	return cookie.Value
}

const page = `<!doctype html><meta charset="utf-8"><title>A site</title>
<p><input id="name" value="ada"> <button id="registration">Register</button> <button id="sign_in">Sign in</button> <p id="said">
<script type="module">
async function post(path, body) {
  const answer = await fetch(path, { method: "POST", body: JSON.stringify(body) });
  if (!answer.ok) throw new Error(await answer.text());
  return answer.json();
}
async function visit(act) {
  const options = await post("/begin", { act, name: document.getElementById("name").value });
  const credential = act === "registration"
    ? await navigator.credentials.create({ publicKey: PublicKeyCredential.parseCreationOptionsFromJSON(options) })
    : await navigator.credentials.get({ publicKey: PublicKeyCredential.parseRequestOptionsFromJSON(options) });
  return post("/finish", credential.toJSON());
}
for (const act of ["registration", "sign_in"]) {
  document.getElementById(act).onclick = () => visit(act).then(JSON.stringify, String)
    .then(text => document.getElementById("said").textContent = text);
}
</script>`

// How often an address may post: 50 times at once, and 5 times a second from then on. At most 10,000 addresses are kept.
type limit struct {
	lock   sync.Mutex
	posted map[string]bucket
}

type bucket struct {
	left float64
	at   time.Time
}

// wait counts a request and returns the seconds until the address may post again. This machine's own addresses are not limited.
func (l *limit) wait(address string, now time.Time) int {
	host, _, err := net.SplitHostPort(address)
	if ip := net.ParseIP(host); err != nil || ip == nil || ip.IsLoopback() {
		return 0
	}
	l.lock.Lock()
	defer l.lock.Unlock()
	had, is := l.posted[host]
	if !is {
		had = bucket{50, now}
		if l.posted == nil || len(l.posted) >= 10_000 {
			l.posted = map[string]bucket{}
		}
	}
	tokens := math.Min(50, had.left+math.Max(0, now.Sub(had.at).Seconds())*5)
	if tokens < 1 {
		l.posted[host] = bucket{tokens, now}
		return int(math.Ceil((1 - tokens) / 5))
	}
	l.posted[host] = bucket{tokens - 1, now}
	return 0
}

func (s *site) begin(asked object) (string, object, error) {
	if asked["act"] != "registration" {
		answer, err := s.ask("begin_sign_in", nil)
		return "sign_in", answer, err
	}
	answer, err := s.ask("begin_registration", object{
		"user": base64.RawURLEncoding.EncodeToString(random(16)), "user_name": fmt.Sprint(asked["name"])})
	return "registration", answer, err
}

func (s *site) serveBegin(out http.ResponseWriter, asked object) {
	act, answer, err := s.begin(asked)
	switch {
	case err != nil:
		http.Error(out, err.Error()+"; ask again", http.StatusServiceUnavailable)
	case answer["error"] != nil:
		http.Error(out, fmt.Sprint(answer["error"]), http.StatusBadRequest)
	default:
		keep(out, "begun", fmt.Sprintf("%s.%v", act, answer["session"]))
		json.NewEncoder(out).Encode(answer["options"])
	}
}

func (s *site) serveFinish(out http.ResponseWriter, begun string, response object) {
	act, session, is := strings.Cut(begun, ".")
	if !is {
		act = "sign_in"
	}
	answer, err := s.finish("finish_"+act, session, response)
	if err != nil {
		http.Error(out, err.Error()+"; ask again", http.StatusServiceUnavailable)
	} else if who, is := answer["accepted"].(map[string]interface{}); is {
		user := fmt.Sprint(who["user"])
		keep(out, "user", user+"."+code(user))
		json.NewEncoder(out).Encode(who)
	} else if step, is := answer["refused"].(map[string]interface{}); is {
		http.Error(out, fmt.Sprintf("%v: %v", step["name"], step["text"]), http.StatusBadRequest)
	} else {
		http.Error(out, fmt.Sprint(answer["error"]), http.StatusBadRequest)
	}
}

func (s *site) ServeHTTP(out http.ResponseWriter, request *http.Request) {
	if request.Method == http.MethodGet && request.URL.Path == "/" {
		out.Header().Set("Content-Type", "text/html")
		io.WriteString(out, page)
		return
	}
	if seconds := s.limit.wait(request.RemoteAddr, time.Now()); seconds > 0 {
		out.Header().Set("Retry-After", strconv.Itoa(seconds))
		http.Error(out, "too many requests", http.StatusTooManyRequests)
		return
	}
	text, err := io.ReadAll(http.MaxBytesReader(out, request.Body, 60_000))
	asked, wrong := parsed(text)
	switch {
	case request.Method != http.MethodPost || request.URL.Path != "/begin" && request.URL.Path != "/finish":
		http.NotFound(out, request)
	case err != nil || wrong != nil:
		http.Error(out, "the request is no JSON object", http.StatusBadRequest)
	case request.URL.Path == "/begin":
		s.serveBegin(out, asked)
	default:
		s.serveFinish(out, found(request, "begun"), asked)
	}
}

func main() {
	host := &site{words: os.Args[2:]}
	log.Fatal(http.ListenAndServe(os.Args[1], host))
}

// A site with passkeys: go run ./example, then http://localhost:8080. It keeps its accounts in memory.
package main

import (
	"crypto/rand"
	_ "embed"
	"encoding/hex"
	"encoding/json"
	"errors"
	"fmt"
	"io"
	"log"
	"net/http"
	"os"
	"sync"

	"garvoeng"
)

//go:embed page.html
var page []byte

// A visitor's state: the open ceremonies, and the user who is signed in. Each session accepts one response.
type visit struct {
	registration *garvoeng.RegistrationSession
	signIn       *garvoeng.SignInSession
	user         string
}

type site struct {
	server      *garvoeng.Server
	mutex       sync.Mutex
	visits      map[string]*visit
	credentials map[string]garvoeng.Credential
}

func token() string {
	words := make([]byte, 16)
	if _, err := rand.Read(words); err != nil {
		panic(err)
	}
	return hex.EncodeToString(words)
}

// The visit for a cookie; a new one if there is none.
func (s *site) visitOf(w http.ResponseWriter, r *http.Request) *visit {
	if cookie, err := r.Cookie("visit"); err == nil && s.visits[cookie.Value] != nil {
		return s.visits[cookie.Value]
	}
	name, made := token(), &visit{}
	s.visits[name] = made
	http.SetCookie(w, &http.Cookie{Name: "visit", Value: name, Path: "/", HttpOnly: true, SameSite: http.SameSiteLaxMode})
	return made
}

func (s *site) act(name string, v *visit, body []byte) (any, error) {
	switch name {
	case "register/begin":
		user := []byte(token())
		options, session, err := s.server.RegisterBegin(user, "visitor "+string(user[:4]), garvoeng.RegisterOptions{})
		v.registration = session
		return options, err
	case "register/complete":
		session := v.registration
		v.registration = nil
		made, err := s.server.RegisterComplete(session, body, func(id []byte) (bool, error) {
			_, found := s.credentials[string(id)]
			return found, nil
		})
		if err != nil {
			return nil, err
		}
		s.credentials[string(made.Credential.ID)] = made.Credential
		v.user = string(made.Credential.User)
		return v.user, nil
	case "sign-in/begin":
		options, session, err := s.server.AuthenticateBegin(garvoeng.AuthenticateOptions{})
		v.signIn = session
		return options, err
	case "sign-in/complete":
		session := v.signIn
		v.signIn = nil
		made, err := s.server.AuthenticateComplete(session, body, func(id []byte) (*garvoeng.Credential, error) {
			if found, ok := s.credentials[string(id)]; ok {
				return &found, nil
			}
			return nil, nil
		})
		if err != nil {
			return nil, err
		}
		s.credentials[string(made.Credential.ID)] = made.Credential
		v.user = string(made.Credential.User)
		return v.user, nil
	}
	return nil, fmt.Errorf("there is no act %q", name)
}

func (s *site) ServeHTTP(w http.ResponseWriter, r *http.Request) {
	w.Header().Set("Content-Security-Policy", "default-src 'none'; script-src 'unsafe-inline'; connect-src 'self'")
	if r.Method != http.MethodPost {
		w.Header().Set("Content-Type", "text/html; charset=utf-8")
		w.Write(page)
		return
	}
	// A page of another site can't send this type without asking first.
	if r.Header.Get("Content-Type") != "application/json" {
		http.Error(w, "write JSON", http.StatusUnsupportedMediaType)
		return
	}
	body, err := io.ReadAll(http.MaxBytesReader(w, r.Body, 100_000))
	if err != nil {
		http.Error(w, "the body is too long", http.StatusRequestEntityTooLarge)
		return
	}
	s.mutex.Lock()
	answer, err := s.act(r.URL.Path[1:], s.visitOf(w, r), body)
	s.mutex.Unlock()
	var refused *garvoeng.Refused
	if errors.As(err, &refused) {
		log.Print(refused.Name, " ", refused.Text)
	}
	if err != nil {
		http.Error(w, "this passkey was not accepted", http.StatusBadRequest)
		return
	}
	w.Header().Set("Content-Type", "application/json")
	json.NewEncoder(w).Encode(answer)
}

func main() {
	address := "localhost:8080"
	if len(os.Args) > 1 {
		address = os.Args[1]
	}
	server, err := garvoeng.NewServer("localhost", []string{"http://" + address}, garvoeng.Config{RPName: "A site in Go"})
	if err != nil {
		log.Fatal(err)
	}
	log.Print("http://", address)
	log.Fatal(http.ListenAndServe(address, &site{server: server, visits: map[string]*visit{}, credentials: map[string]garvoeng.Credential{}}))
}

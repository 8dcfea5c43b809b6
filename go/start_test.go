package garvoeng_test

import (
	"testing"

	"garvoeng"
)

// What README shows, as far as it goes without a page.
func TestStart(t *testing.T) {
	user, body := []byte("account 7"), []byte("{}")
	isRegistered := func([]byte) (bool, error) { return false, nil }
	credential := func([]byte) (*garvoeng.Credential, error) { return nil, nil }
	server, err := garvoeng.NewServer("example.com", []string{"https://example.com"}, garvoeng.Config{})
	if err != nil {
		t.Fatal(err)
	}
	register := func() (any, any, error) {
		options, session, err := server.RegisterBegin(user, "name", garvoeng.RegisterOptions{})
		registered, err := server.RegisterComplete(session, body, isRegistered)
		return options, registered, err
	}
	signIn := func() (any, any, error) {
		options, session, err := server.AuthenticateBegin(garvoeng.AuthenticateOptions{})
		signedIn, err := server.AuthenticateComplete(session, body, credential)
		return options, signedIn, err
	}
	for _, ceremony := range []func() (any, any, error){register, signIn} {
		if options, _, err := ceremony(); options == nil || err == nil || err.Error() != "response is missing" {
			t.Error(options, err)
		}
	}
}

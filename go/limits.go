package garvoeng

import (
	"regexp"
	"strconv"
	"strings"
)

const (
	// MaxList is the greatest number of credential ids in a list: browsers accept no longer one.
	MaxList = 64
	maxUser = 64
	maxID   = 1023
)

var (
	domain    = regexp.MustCompile(`^[a-z0-9_](?:[a-z0-9_-]*[a-z0-9_])?(?:\.[a-z0-9_](?:[a-z0-9_-]*[a-z0-9_])?)*$`)
	address   = regexp.MustCompile(`(?:^|\.)[0-9]+$`)
	originOf  = regexp.MustCompile(`^([a-z][a-z0-9+.-]*)://([a-z0-9._-]+|\[[0-9a-f:]+\])(?::([1-9][0-9]{0,4}))?$`)
	android   = regexp.MustCompile(`^android:apk-key-hash:[A-Za-z0-9_-]+$`)
	transport = regexp.MustCompile(`^[a-z0-9-]{1,32}$`)
)

var usualPorts = map[string]string{"https": "443", "http": "80"}

func isTransport(text string) bool {
	return transport.MatchString(text)
}

// A domain as browsers write it: 1 to 253 characters, and not an IP address (WebAuthn Level 2, section 4).
func checkRPID(rpID string) error {
	if len(rpID) > 253 || !domain.MatchString(rpID) {
		return badInput("the rp id is %q: write a domain in lower case, without a scheme and a port, as \"example.com\"", short(rpID))
	}
	if address.MatchString(rpID) {
		return badInput("the rp id is an IP address")
	}
	return nil
}

// The host of an origin as browsers write it (RFC 6454, section 6.2); empty for an app's.
func hostOf(origin string) (string, error) {
	if android.MatchString(origin) {
		return "", nil
	}
	found := originOf.FindStringSubmatch(origin)
	if found == nil {
		return "", badInput("%q is not an origin in lower case and without a path, as https://example.com", short(origin))
	}
	usual, isWeb := usualPorts[found[1]]
	if port := found[3]; port != "" {
		if number, _ := strconv.Atoi(port); number > 65_535 || port == usual {
			return "", badInput("%q has a port that browsers do not write", short(origin))
		}
	}
	if !isWeb {
		return "", nil
	}
	return found[2], nil
}

// If a relying party has web origins, the host of at least one is the rp id or ends in it.
func checkParty(rpID string, origins, topOrigins []string) error {
	if err := checkRPID(rpID); err != nil {
		return err
	}
	if len(origins) == 0 {
		return badInput("origins is empty: write a list of one text or more, as []string{\"https://example.com\"}")
	}
	hasWeb, fits := false, false
	for _, origin := range origins {
		host, err := hostOf(origin)
		if err != nil {
			return err
		}
		hasWeb = hasWeb || host != ""
		fits = fits || host == rpID || strings.HasSuffix(host, "."+rpID)
	}
	if hasWeb && !fits {
		return badInput("the rp id %s is neither the host of an origin nor what it ends in, as of https://%s or https://www.%s", rpID, rpID, rpID)
	}
	for _, origin := range topOrigins {
		if _, err := hostOf(origin); err != nil {
			return err
		}
	}
	return nil
}

func checkUser(user []byte) error {
	if len(user) < 1 || len(user) > maxUser {
		return badInput("a user handle has 1 to %d bytes", maxUser)
	}
	return nil
}

func checkList(credentials []Credential) error {
	if len(credentials) > MaxList {
		return badInput("a list has at most %d credential ids", MaxList)
	}
	for _, credential := range credentials {
		if len(credential.ID) < 1 || len(credential.ID) > maxID {
			return badInput("a credential id has 1 to %d bytes", maxID)
		}
	}
	return nil
}

func checkAlgorithms(algorithms []Algorithm) error {
	for _, algorithm := range algorithms {
		if algorithm != ES256 && algorithm != EdDSA && algorithm != RS256 {
			return badInput("algorithms are ES256 (-7), EdDSA (-8) and RS256 (-257)")
		}
	}
	return nil
}

func checkOneOf(value, what string, texts ...string) error {
	for _, text := range texts {
		if value == text {
			return nil
		}
	}
	return badInput("%s is %q: write one of %s", what, short(value), strings.Join(texts, ", "))
}

func short(text string) string {
	if len(text) > 40 {
		return text[:40] + ".."
	}
	return text
}

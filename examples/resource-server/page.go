// page PORT URL CLIENT_ID: a page that needs an access token with the scope `read`. URL is a base
// URL of tokend, such as https://auth.example or unix:/run/tokend-front/one/socket.
//
// Checker is the part to take over: it introspects at tokend, and lets a request pass only if the
// token is active, is an access token, has not expired and has the scope. It fails closed: without
// a reply of status 200 it replies 503. SECRET in the environment is the client's secret.
package main

import (
	"context"
	"encoding/json"
	"fmt"
	"net"
	"net/http"
	"net/url"
	"os"
	"strings"
	"time"
)

// Claims is what introspection reports of an active token.
type Claims struct {
	Active    bool   `json:"active"`
	TokenType string `json:"token_type"`
	Scope     string `json:"scope"`
	Subject   string `json:"sub"`
	Expiry    int64  `json:"exp"`
}

// Checker introspects as a client of kind resource.
type Checker struct {
	URL, ClientID, Secret string
	Client                http.Client
}

// NewChecker returns a checker that asks at a base URL.
func NewChecker(base, clientID, secret string) *Checker {
	transport := &http.Transport{Proxy: nil}
	if strings.HasPrefix(base, "unix:") {
		path := strings.TrimPrefix(base, "unix:")
		transport.DialContext = func(ctx context.Context, _, _ string) (net.Conn, error) {
			return new(net.Dialer).DialContext(ctx, "unix", path)
		}
		base = "http://localhost"
	}
	client := http.Client{Timeout: 5 * time.Second, Transport: transport}
	return &Checker{strings.TrimRight(base, "/") + "/introspect", clientID, secret, client}
}

// Introspect returns what tokend reports of a token.
func (c *Checker) Introspect(token string) (Claims, error) {
	var claims Claims
	body := strings.NewReader(url.Values{"token": {token}}.Encode())
	asked, err := http.NewRequest("POST", c.URL, body)
	if err != nil {
		return claims, err
	}
	asked.Header.Set("Content-Type", "application/x-www-form-urlencoded")
	asked.SetBasicAuth(url.QueryEscape(c.ClientID), url.QueryEscape(c.Secret))
	reply, err := c.Client.Do(asked)
	if err != nil {
		return claims, err
	}
	defer reply.Body.Close()
	if reply.StatusCode != http.StatusOK {
		return claims, fmt.Errorf("introspection: %s", reply.Status)
	}
	return claims, json.NewDecoder(reply.Body).Decode(&claims)
}

// Protect lets requests with a good access token of the scope pass to next.
func (c *Checker) Protect(scope string, next func(http.ResponseWriter, Claims)) http.Handler {
	refuse := func(w http.ResponseWriter, status int, challenge string) {
		w.Header().Set("WWW-Authenticate", challenge)
		w.WriteHeader(status)
	}
	return http.HandlerFunc(func(w http.ResponseWriter, r *http.Request) {
		scheme, token, _ := strings.Cut(r.Header.Get("Authorization"), " ")
		if !strings.EqualFold(scheme, "bearer") || token == "" {
			refuse(w, http.StatusUnauthorized, "Bearer")
			return
		}
		claims, err := c.Introspect(token)
		switch {
		case err != nil:
			w.WriteHeader(http.StatusServiceUnavailable)
		case !claims.Active, claims.TokenType != "Bearer", claims.Expiry <= time.Now().Unix():
			// a good refresh token is active too, but has no token_type
			refuse(w, http.StatusUnauthorized, `Bearer error="invalid_token"`)
		case !strings.Contains(" "+claims.Scope+" ", " "+scope+" "):
			refuse(w, http.StatusForbidden, `Bearer error="insufficient_scope"`)
		default:
			next(w, claims)
		}
	})
}

func main() {
	checker := NewChecker(os.Args[2], os.Args[3], os.Getenv("SECRET"))
	http.Handle("/page/", checker.Protect("read", func(w http.ResponseWriter, claims Claims) {
		fmt.Fprintf(w, "Hello %s\n", claims.Subject)
	}))
	fmt.Fprintln(os.Stderr, http.ListenAndServe("127.0.0.1:"+os.Args[1], nil))
	os.Exit(1)
}

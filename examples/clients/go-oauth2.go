// go-oauth2: a code flow with PKCE by golang.org/x/oauth2, each answer compared.
//
// `tour` sets in the environment where and who: AT, CLIENT, SECRET, ODD, ODD_SECRET, SERVER,
// SERVER_SECRET, REDIRECT. Status 0: each reply was as expected. 1: one was not.
package main

import (
	"context"
	"crypto/rand"
	"crypto/sha256"
	"encoding/base64"
	"fmt"
	"io"
	"net/http"
	"net/url"
	"os"
	"strings"

	"golang.org/x/oauth2"
)

var at = os.Getenv("AT")
var failed = 0

func expect(what, wanted, said string) {
	fmt.Printf("    %s: %s\n", what, said)
	if !strings.Contains(said, wanted) {
		fmt.Printf("    WANTED: %s\n", wanted)
		failed = 1
	}
}

// what the library answers as an error, as it shows it: in two lines
func shown(token *oauth2.Token, err error) string {
	if err == nil {
		return "no error: " + token.TokenType
	}
	return strings.ReplaceAll(err.Error(), "\n", " ")
}

func must(err error) {
	if err != nil {
		fmt.Printf("    FAILED: %s\n", err)
		os.Exit(1)
	}
}

func client(id, secret string, style oauth2.AuthStyle) *oauth2.Config {
	return &oauth2.Config{
		ClientID:     os.Getenv(id),
		ClientSecret: os.Getenv(secret),
		RedirectURL:  os.Getenv("REDIRECT"),
		Scopes:       []string{"read", "write"},
		Endpoint: oauth2.Endpoint{
			AuthURL: at + "/authorize", TokenURL: at + "/token", AuthStyle: style},
	}
}

// where a browser is led to; the front end says who has signed in
func signIn(where string) url.Values {
	request, err := http.NewRequest("GET", where, nil)
	must(err)
	request.Header.Set("X-Subject", "ann")
	reply, err := http.DefaultTransport.RoundTrip(request) // which follows no redirect
	must(err)
	reply.Body.Close()
	location, err := url.Parse(reply.Header.Get("Location"))
	must(err)
	return location.Query()
}

// what counts the requests that pass
type counter struct{ count int }

func (c *counter) RoundTrip(request *http.Request) (*http.Response, error) {
	c.count++
	return http.DefaultTransport.RoundTrip(request)
}

// this version has no PKCE: its parameters are passed on as they are
func codeFlow(c *oauth2.Config) (*oauth2.Token, error) {
	random := make([]byte, 32)
	_, err := rand.Read(random)
	must(err)
	verifier := base64.RawURLEncoding.EncodeToString(random)
	sum := sha256.Sum256([]byte(verifier))
	answer := signIn(c.AuthCodeURL("xyz", oauth2.SetAuthURLParam("code_challenge_method", "S256"),
		oauth2.SetAuthURLParam("code_challenge", base64.RawURLEncoding.EncodeToString(sum[:]))))
	if answer.Get("state") != "xyz" {
		must(fmt.Errorf("another state"))
	}
	return c.Exchange(context.Background(), answer.Get("code"),
		oauth2.SetAuthURLParam("code_verifier", verifier))
}

func refresh(c *oauth2.Config, token string) (*oauth2.Token, error) {
	return c.TokenSource(context.Background(), &oauth2.Token{RefreshToken: token}).Token()
}

// the library has no introspection and no revocation: a form, with id and secret form-encoded
func post(path, id, secret, token string) (int, string) {
	form := strings.NewReader(url.Values{"token": {token}}.Encode())
	request, err := http.NewRequest("POST", at+path, form)
	must(err)
	request.Header.Set("Content-Type", "application/x-www-form-urlencoded")
	request.SetBasicAuth(url.QueryEscape(os.Getenv(id)), url.QueryEscape(secret))
	reply, err := http.DefaultClient.Do(request)
	must(err)
	defer reply.Body.Close()
	body, err := io.ReadAll(reply.Body)
	must(err)
	return reply.StatusCode, string(body)
}

func main() {
	app := client("CLIENT", "SECRET", oauth2.AuthStyleInHeader)
	secret, server := os.Getenv("SECRET"), os.Getenv("SERVER_SECRET")

	token, err := codeFlow(app)
	must(err)
	expect("token", "Bearer", fmt.Sprintf("%s, scope %v", token.Type(), token.Extra("scope")))
	_, said := post("/introspect", "SERVER", server, token.AccessToken)
	expect("introspected", `"sub":"ann"`, said)
	renewed, err := refresh(app, token.RefreshToken)
	must(err)
	expect("refreshed", "read write", fmt.Sprint(renewed.Extra("scope")))
	status, _ := post("/revoke", "CLIENT", secret, renewed.AccessToken)
	expect("revoked", "200", fmt.Sprint(status))
	_, said = post("/introspect", "SERVER", server, renewed.AccessToken)
	expect("introspected", `{"active":false}`, said)

	inHeader := client("ODD", "ODD_SECRET", oauth2.AuthStyleInHeader)
	expect("a secret with + and % in Basic, form-encoded", "no error: Bearer",
		shown(codeFlow(inHeader)))
	inBody := client("ODD", "ODD_SECRET", oauth2.AuthStyleInParams)
	expect("the same in the body", "no error: Bearer", shown(codeFlow(inBody)))
	// as long as no request has succeeded, one that failed is sent again, with the secret in the body
	requests := &counter{}
	counted := context.WithValue(context.Background(), oauth2.HTTPClient,
		&http.Client{Transport: requests})
	detects := client("CLIENT", "SECRET", oauth2.AuthStyleAutoDetect)
	_, err = detects.Exchange(counted, "none")
	expect("with AutoDetect, a refused code", "2 requests",
		fmt.Sprintf("%d requests, %s", requests.count, shown(nil, err)))
	detects = client("CLIENT", "SECRET", oauth2.AuthStyleAutoDetect)
	expect("with AutoDetect, a good code", "no error: Bearer", shown(codeFlow(detects)))

	wide := client("CLIENT", "SECRET", oauth2.AuthStyleInHeader)
	wide.Scopes = []string{"admin"}
	expect("/authorize, a scope too wide", "invalid_scope",
		signIn(wide.AuthCodeURL("xyz")).Get("error"))
	expect("/token, no such code", "invalid_grant", shown(app.Exchange(context.Background(), "none")))
	expect("/token, a used refresh token", "invalid_grant", shown(refresh(app, token.RefreshToken)))
	status, said = post("/introspect", "CLIENT", "wrong", "none")
	expect("/introspect, a wrong secret", "401 {", fmt.Sprint(status, " ", said))
	status, said = post("/revoke", "CLIENT", "wrong", "none")
	expect("/revoke, a wrong secret", "401 {", fmt.Sprint(status, " ", said))
	os.Exit(failed)
}

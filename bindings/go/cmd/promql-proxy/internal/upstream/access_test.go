package upstream

import (
	"context"
	"crypto/ecdsa"
	"crypto/elliptic"
	"crypto/rand"
	"crypto/tls"
	"crypto/x509"
	"encoding/pem"
	"io"
	"log"
	"math/big"
	"net/http"
	"net/http/httptest"
	"os"
	"path/filepath"
	"strings"
	"testing"
	"time"
)

// written returns the path of a new file with this text.
func written(t *testing.T, text string) string {
	t.Helper()
	path := filepath.Join(t.TempDir(), "file")
	rewrite(t, path, text)
	return path
}

func rewrite(t *testing.T, path, text string) {
	t.Helper()
	if err := os.WriteFile(path, []byte(text), 0o600); err != nil {
		t.Fatal(err)
	}
}

// ask asks a server a query, and returns the answer.
func ask(behind *Server) (string, error) {
	response, err := behind.Ask(context.Background(), Question{Method: "GET", Path: "/", Header: http.Header{"Authorization": {"Bearer of a client"}}})
	if err != nil {
		return "", err
	}
	defer response.Body.Close()
	text, err := io.ReadAll(response.Body)
	return string(text), err
}

func TestSecrets(t *testing.T) {
	server := httptest.NewServer(http.HandlerFunc(func(w http.ResponseWriter, r *http.Request) {
		_, _ = io.WriteString(w, strings.Join(r.Header.Values("Authorization"), "; "))
	}))
	defer server.Close()
	token := written(t, "one\n")
	bearer, err := New(server.URL, Access{BearerFile: token})
	if err != nil {
		t.Fatal(err)
	}
	for text, wanted := range map[string]string{"one": "Bearer one", "two\r\n": "Bearer two", "a.b-c_d~e+f/g==\n": "Bearer a.b-c_d~e+f/g=="} {
		rewrite(t, token, text)
		if found, err := ask(bearer); err != nil || found != wanted {
			t.Errorf("%q: %s %v", text, found, err)
		}
	}
	// A secret that is not there, or is none, is not sent, and no error shows it.
	for _, text := range []string{"", "\n", "secret and more", "secret\nX-Scope-OrgID: team-b", "sécret", strings.Repeat("secret", 20000)} {
		rewrite(t, token, text)
		if found, err := ask(bearer); err == nil || found != "" || strings.Contains(err.Error(), "secret") || strings.Contains(err.Error(), "team") {
			t.Errorf("%.50q: %s %v", text, found, err)
		}
	}
	basic, err := New(server.URL, Access{User: "me", PasswordFile: written(t, "a: b\n\n")})
	if err != nil {
		t.Fatal(err)
	}
	// base64 of "me:a: b\n"
	if found, err := ask(basic); err != nil || found != "Basic bWU6YTogYgo=" {
		t.Errorf("%s %v", found, err)
	}
}

// pair writes a certificate of its own authority, and its key.
func pair(t *testing.T, name string) (certificate, certFile, keyFile string) {
	t.Helper()
	key, err := ecdsa.GenerateKey(elliptic.P256(), rand.Reader)
	if err != nil {
		t.Fatal(err)
	}
	template := &x509.Certificate{
		SerialNumber: big.NewInt(1), DNSNames: []string{name}, NotAfter: time.Now().Add(time.Hour), IsCA: true, BasicConstraintsValid: true,
	}
	made, err := x509.CreateCertificate(rand.Reader, template, template, &key.PublicKey, key)
	if err != nil {
		t.Fatal(err)
	}
	hidden, err := x509.MarshalECPrivateKey(key)
	if err != nil {
		t.Fatal(err)
	}
	certificate = string(pem.EncodeToMemory(&pem.Block{Type: "CERTIFICATE", Bytes: made}))
	return certificate, written(t, certificate), written(t, string(pem.EncodeToMemory(&pem.Block{Type: "EC PRIVATE KEY", Bytes: hidden})))
}

func TestCertificates(t *testing.T) {
	_, mine, mineKey := pair(t, "proxy")
	other, others, othersKey := pair(t, "other")
	known := x509.NewCertPool()
	text, err := os.ReadFile(mine)
	if err != nil || !known.AppendCertsFromPEM(text) {
		t.Fatal(err)
	}
	server := httptest.NewUnstartedServer(http.HandlerFunc(func(w http.ResponseWriter, r *http.Request) {
		_, _ = io.WriteString(w, r.TLS.PeerCertificates[0].DNSNames[0])
	}))
	server.Config.ErrorLog = log.New(io.Discard, "", 0)
	server.TLS = &tls.Config{ClientAuth: tls.RequireAndVerifyClientCert, ClientCAs: known}
	server.StartTLS()
	defer server.Close()
	authority := written(t, string(pem.EncodeToMemory(&pem.Block{Type: "CERTIFICATE", Bytes: server.Certificate().Raw})))
	for name, it := range map[string]struct {
		access Access
		right  bool
	}{
		"as both know each other":      {Access{CAFile: authority, CertFile: mine, KeyFile: mineKey}, true},
		"the server is not known":      {Access{CertFile: mine, KeyFile: mineKey}, false},
		"another server is known":      {Access{CAFile: written(t, other), CertFile: mine, KeyFile: mineKey}, false},
		"the proxy has no certificate": {Access{CAFile: authority}, false},
		"the proxy has another one":    {Access{CAFile: authority, CertFile: others, KeyFile: othersKey}, false},
	} {
		behind, err := New(server.URL, it.access)
		if err != nil {
			t.Fatal(err)
		}
		if found, err := ask(behind); (err == nil && found == "proxy") != it.right {
			t.Errorf("%s: %s %v", name, found, err)
		}
	}
	if _, err := New(server.URL, Access{CertFile: mine, KeyFile: othersKey}); err == nil || !strings.Contains(err.Error(), "private key does not match") {
		t.Errorf("the key of another: %v", err)
	}
}

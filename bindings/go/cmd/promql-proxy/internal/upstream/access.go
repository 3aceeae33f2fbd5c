package upstream

import (
	"crypto/tls"
	"crypto/x509"
	"encoding/base64"
	"errors"
	"fmt"
	"io"
	"os"
	"strings"
)

// Access is how a server knows the proxy, and the proxy the server. The files of secrets, of the certificate and of its key are read where
// they are used, so that others can be put into their places; those of authorities are read once.
type Access struct {
	User, PasswordFile        string
	BearerFile                string
	CAFile, CertFile, KeyFile string
}

// The most bytes of a file with a secret.
const maxSecret = 1 << 16

// check says what is wrong with the access to a server of this scheme. Each file is read.
func (a Access) check(scheme string) error {
	switch {
	case (a.User == "") != (a.PasswordFile == ""):
		return errors.New("a user and a file with the password are given together")
	case strings.Contains(a.User, ":"):
		return errors.New("a user has no colon in the name")
	case a.User != "" && a.BearerFile != "":
		return errors.New("there is a user, or a file with a token, and not both")
	case (a.CertFile == "") != (a.KeyFile == ""):
		return errors.New("a certificate and its key are given together")
	case scheme != "https" && a.CAFile+a.CertFile != "":
		return errors.New("certificates are for https")
	}
	_, err := a.authorization()
	return err
}

// HasAuthorization says whether the server is told who the proxy is by the header Authorization.
func (a Access) HasAuthorization() bool {
	return a.User != "" || a.BearerFile != ""
}

// authorization returns the value of the header Authorization, or nothing where there is none.
func (a Access) authorization() (string, error) {
	switch {
	case a.User != "":
		password, err := secret(a.PasswordFile)
		return "Basic " + base64.StdEncoding.EncodeToString([]byte(a.User+":"+password)), err
	case a.BearerFile != "":
		token, err := secret(a.BearerFile)
		if err == nil && strings.IndexFunc(token, func(r rune) bool { return r <= ' ' || '~' < r }) >= 0 {
			return "", fmt.Errorf("%s: a token has no blanks, and no characters other than those of ASCII", a.BearerFile)
		}
		return "Bearer " + token, err
	}
	return "", nil
}

// secret returns what a file has, without the end of its line. No error shows it.
func secret(path string) (string, error) {
	file, err := os.Open(path)
	if err != nil {
		return "", err
	}
	defer file.Close()
	text, err := io.ReadAll(io.LimitReader(file, maxSecret+1))
	if err != nil {
		return "", err
	}
	found := strings.TrimSuffix(strings.TrimSuffix(string(text), "\n"), "\r")
	if found == "" || len(text) > maxSecret {
		return "", fmt.Errorf("%s is empty, or has more than %d bytes", path, maxSecret)
	}
	return found, nil
}

// tls returns how connections are encrypted: with the authorities of the system, or those of the file, and the certificate, if there is one.
func (a Access) tls() (*tls.Config, error) {
	made := &tls.Config{MinVersion: tls.VersionTLS12}
	if a.CAFile != "" {
		text, err := os.ReadFile(a.CAFile)
		if err != nil {
			return nil, err
		}
		made.RootCAs = x509.NewCertPool()
		if !made.RootCAs.AppendCertsFromPEM(text) {
			return nil, fmt.Errorf("%s has no certificate", a.CAFile)
		}
	}
	if a.CertFile != "" {
		if _, err := tls.LoadX509KeyPair(a.CertFile, a.KeyFile); err != nil {
			return nil, err
		}
		made.GetClientCertificate = func(*tls.CertificateRequestInfo) (*tls.Certificate, error) {
			pair, err := tls.LoadX509KeyPair(a.CertFile, a.KeyFile)
			return &pair, err
		}
	}
	return made, nil
}

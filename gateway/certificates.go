package main

import (
	"crypto/tls"
	"crypto/x509"
	"errors"
	"fmt"
	"os"
	"sync/atomic"
	"time"

	"pathd/gateway/internal/settings"
)

// certificates has the TLS configuration of the files of the settings. Reading them again changes it
// for the connections that come later.
type certificates struct {
	settings *settings.Settings
	config   atomic.Pointer[tls.Config]
	expiry   atomic.Int64 // of the certificate, in Unix seconds
}

// newCertificates reads the files. It answers nil where the settings have no TLS.
func newCertificates(s *settings.Settings) (*certificates, error) {
	if s.Certificate == "" {
		return nil, nil
	}
	c := &certificates{settings: s}
	return c, c.read()
}

// suites are those of TLS 1.2: with forward secrecy and authenticated encryption. TLS 1.3 has no others.
var suites = []uint16{
	tls.TLS_ECDHE_ECDSA_WITH_AES_128_GCM_SHA256, tls.TLS_ECDHE_RSA_WITH_AES_128_GCM_SHA256,
	tls.TLS_ECDHE_ECDSA_WITH_AES_256_GCM_SHA384, tls.TLS_ECDHE_RSA_WITH_AES_256_GCM_SHA384,
	tls.TLS_ECDHE_ECDSA_WITH_CHACHA20_POLY1305_SHA256, tls.TLS_ECDHE_RSA_WITH_CHACHA20_POLY1305_SHA256,
}

// read reads the files, and keeps what was read before where one of them is faulty.
func (c *certificates) read() error {
	pair, err := tls.LoadX509KeyPair(c.settings.Certificate, c.settings.Key)
	if err != nil {
		return fmt.Errorf("certificate: %w", err)
	}
	leaf, err := x509.ParseCertificate(pair.Certificate[0])
	if err != nil {
		return fmt.Errorf("certificate: %w", err)
	}
	config := &tls.Config{
		Certificates: []tls.Certificate{pair},
		NextProtos:   []string{"h2", "http/1.1"},
		MinVersion:   tls.VersionTLS12,
		CipherSuites: suites,
	}
	if c.settings.ClientCA != "" {
		if config.ClientCAs, err = authorities(c.settings.ClientCA); err != nil {
			return fmt.Errorf("client authorities: %w", err)
		}
		config.ClientAuth = tls.RequireAndVerifyClientCert
	}
	c.expiry.Store(leaf.NotAfter.Unix())
	c.config.Store(config)
	return nil
}

func authorities(file string) (*x509.CertPool, error) {
	content, err := os.ReadFile(file)
	if err != nil {
		return nil, err
	}
	pool := x509.NewCertPool()
	if !pool.AppendCertsFromPEM(content) {
		return nil, errors.New(file + " has no certificate")
	}
	return pool, nil
}

// current answers the configuration for the next connection, or nil where there is no TLS.
func (c *certificates) current() func() *tls.Config {
	if c == nil {
		return nil
	}
	return c.config.Load
}

// expiresAt answers when the certificate expires.
func (c *certificates) expiresAt() time.Time { return time.Unix(c.expiry.Load(), 0) }

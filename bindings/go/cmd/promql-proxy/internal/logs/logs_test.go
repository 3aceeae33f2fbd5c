package logs

import (
	"strings"
	"testing"
	"time"
)

func TestLines(t *testing.T) {
	var out strings.Builder
	logger := New(&out, Warn)
	logger.now = func() time.Time { return time.Unix(1700000000, 5e6) }
	logger.Log(Info, "nothing")
	logger.Log(Warn, "a request", "path", "/a/b", "empty", "", "text", "a\nlevel=error \x1b\u202e\xffü\"", "pair", "a=b", "count", 7)
	logger.Log(Error, "long", "text", strings.Repeat("a", 5000))
	logger.Standard().Print("http: said\n")
	wanted := `time=2023-11-14T22:13:20.005Z level=warn msg="a request" path=/a/b empty="" text="a\nlevel=error \x1b\u202e\xff\u00fc\"" pair="a=b" count=7` + "\n" +
		`time=2023-11-14T22:13:20.005Z level=error msg=long text=` + strings.Repeat("a", 4096) + "..\n" +
		`time=2023-11-14T22:13:20.005Z level=warn msg=net/http said="http: said"` + "\n"
	if out.String() != wanted {
		t.Error(out.String())
	}
}

func TestLevels(t *testing.T) {
	for name, wanted := range map[string]Level{"info": Info, "warn": Warn, "error": Error} {
		if found, err := ParseLevel(name); err != nil || found != wanted {
			t.Errorf("%s: %v %v", name, found, err)
		}
	}
	if _, err := ParseLevel("debug"); err == nil {
		t.Error("no error")
	}
}

package refusal

import (
	"encoding/csv"
	"os"
	"strconv"
	"strings"
	"testing"

	"google.golang.org/grpc/codes"
)

// TestTheTableHasTheCodesOfTheProject compares codes and names with the rows of docs/codes.csv.
func TestTheTableHasTheCodesOfTheProject(t *testing.T) {
	file, err := os.Open(os.Getenv("CODES"))
	if err != nil {
		t.Skip("CODES is the path of docs/codes.csv")
	}
	defer file.Close()
	rows, err := csv.NewReader(file).ReadAll()
	if err != nil {
		t.Fatal(err)
	}
	seen := map[Code]bool{}
	for _, row := range rows[1:] {
		number, err := strconv.ParseUint(strings.TrimPrefix(row[0], "0x"), 16, 8)
		if err != nil {
			t.Fatal(err)
		}
		seen[Code(number)] = true
		if it, isKnown := table[Code(number)]; !isKnown || it.Name != row[1] {
			t.Errorf("%s: %q, not %q", row[0], it.Name, row[1])
		}
	}
	for code := range table {
		if !seen[code] {
			t.Errorf("%#02x is none of docs/codes.csv", code)
		}
	}
}

func TestTexts(t *testing.T) {
	for code, wanted := range map[Code]string{
		0x43: "0x43 NoCore: neither side is core",
		0x01: "0x01 Memory: memory was refused",
		0x99: "0x99 an unknown code",
	} {
		if TextOf(code) != wanted {
			t.Errorf("%q", TextOf(code))
		}
	}
	if got := MeaningOf(0x99).Status; got != codes.Internal {
		t.Error(got)
	}
}

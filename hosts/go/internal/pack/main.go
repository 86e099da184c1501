// Packs this module with the library and its header beside the sources, as a folder in a zip, and as a folder that is a
// proxy:
//
//	go run ./internal/pack LIBRARY HEADER FOLDER    makes FOLDER/wormweekly-go.zip and FOLDER/go
package main

import (
	"archive/zip"
	"io"
	"io/fs"
	"log"
	"os"
	"path/filepath"
)

const (
	module  = "wormweekly.example/wormweekly"
	version = "v0.4.0"
)

func main() {
	if len(os.Args) != 4 {
		log.Fatal("usage: pack LIBRARY HEADER FOLDER")
	}
	if err := run(os.Args[1], os.Args[2], os.Args[3]); err != nil {
		log.Fatal(err)
	}
}

func run(library, header, folder string) error {
	if err := pack(library, header, filepath.Join(folder, "wormweekly-go.zip"), "wormweekly"); err != nil {
		return err
	}
	versions := filepath.Join(folder, "go", filepath.FromSlash(module), "@v")
	if err := os.MkdirAll(versions, 0o755); err != nil {
		return err
	}
	mod, err := os.ReadFile("go.mod")
	if err != nil {
		return err
	}
	for name, text := range map[string]string{
		"list": version + "\n", version + ".info": `{"Version":"` + version + `"}`, version + ".mod": string(mod),
	} {
		if err := os.WriteFile(filepath.Join(versions, name), []byte(text), 0o644); err != nil {
			return err
		}
	}
	return pack(library, header, filepath.Join(versions, version+".zip"), module+"@"+version)
}

// Packs all below a root.
func pack(library, header, path, root string) error {
	out, err := os.Create(path)
	if err != nil {
		return err
	}
	defer out.Close()
	packed := zip.NewWriter(out)
	err = filepath.WalkDir(".", func(name string, entry fs.DirEntry, err error) error {
		if err != nil || entry.IsDir() {
			return err
		}
		return add(packed, name, root+"/"+filepath.ToSlash(name))
	})
	if err != nil {
		return err
	}
	if err := add(packed, library, root+"/lib/libwormweekly.a"); err != nil {
		return err
	}
	if err := add(packed, header, root+"/include/wormweekly.h"); err != nil {
		return err
	}
	return packed.Close()
}

func add(packed *zip.Writer, path, name string) error {
	in, err := os.Open(path)
	if err != nil {
		return err
	}
	defer in.Close()
	entry, err := packed.Create(name)
	if err != nil {
		return err
	}
	_, err = io.Copy(entry, in)
	return err
}

// Package packageurl stands in for the package that Debian lacks, so that buildkitd compiles: only provenance and
// software bills use it, and what is measured and compared here asks for neither.
package packageurl

import "errors"

const (
	TypeOCI    = "oci"
	TypeDocker = "docker"
)

type Qualifier struct{ Key, Value string }

type Qualifiers []Qualifier

type PackageURL struct {
	Type, Namespace, Name, Version string
	Qualifiers                     Qualifiers
	Subpath                        string
}

func NewPackageURL(kind, namespace, name, version string, qualifiers Qualifiers, subpath string) *PackageURL {
	return &PackageURL{kind, namespace, name, version, qualifiers, subpath}
}

func (p *PackageURL) ToString() string {
	return "pkg:" + p.Type + "/" + p.Namespace + "/" + p.Name + "@" + p.Version
}

func FromString(string) (PackageURL, error) {
	return PackageURL{}, errors.New("no package URLs in this build")
}

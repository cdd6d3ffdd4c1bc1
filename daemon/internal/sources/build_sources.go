package sources

import "sync"

// A Key is what tells the sources of a build apart: a session, and what is asked of it.
type Key struct {
	Session, Name, Filters string
	ByMetadata             bool
}

// Key returns the key of a request to a session.
func (r Request) Key(session string) Key {
	return Key{Session: session, Name: r.Name, Filters: r.filters, ByMetadata: r.ByMetadata}
}

// KeyOfImage returns the key of the tree of an image, which no session sends.
func KeyOfImage(key string) Key { return Key{Name: key, Filters: ofImages} }

// A Once fetches each source of a build once.
type Once struct {
	mu  sync.Mutex
	all map[Key]*fetched
}

type fetched struct {
	mu       sync.Mutex
	manifest *Manifest
}

func (o *Once) of(key Key) *fetched {
	o.mu.Lock()
	defer o.mu.Unlock()
	if o.all == nil {
		o.all = map[Key]*fetched{}
	}
	if o.all[key] == nil {
		o.all[key] = &fetched{}
	}
	return o.all[key]
}

// Get returns a source with a hold of it, and whether it is fetched by this call; the hold with which it was fetched is the
// build's then.
func (o *Once) Get(key Key, fetch func() (*Manifest, error)) (_ *Manifest, isNew bool, err error) {
	one := o.of(key)
	one.mu.Lock()
	defer one.mu.Unlock()
	if one.manifest == nil {
		if one.manifest, err = fetch(); err != nil {
			return nil, false, err
		}
		isNew = true
	}
	one.manifest.Hold()
	return one.manifest, isNew, nil
}

// Forget forgets all sources.
func (o *Once) Forget() {
	o.mu.Lock()
	defer o.mu.Unlock()
	o.all = nil
}

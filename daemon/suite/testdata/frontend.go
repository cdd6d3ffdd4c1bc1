package frontend

import "llbm/daemon/suite"

func init() { suite.Register() }

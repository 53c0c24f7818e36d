class A { int # ; }

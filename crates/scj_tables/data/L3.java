class A { /* the tank }

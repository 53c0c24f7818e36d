class Log {
  int e0; int e1; int e2; int e3; int e4; int e5; int e6; int e7; int e8; int e9; int e10; int e11; int e12;
  int e13; int e14; int e15; int e16; int e17; int e18; int e19; int e20; int e21; int e22; int e23; int e24; int e25;
  int e26; int e27; int e28; int e29; int e30; int e31; int e32; int e33; int e34; int e35; int e36; int e37; int e38;
  int e39; int e40; int e41; int e42; int e43; int e44; int e45; int e46; int e47; int e48; int e49; int e50; int e51;
  int e52; int e53; int e54; int e55; int e56; int e57; int e58; int e59; int e60; int e61; int e62; int e63; int e64;
}

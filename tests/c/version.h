/* The length of VERSION's packet. */
enum { VERSION = 153 };

"""Why no schedule exists, in words: the rays and empty leaves of a certificate, with numbers of the instance."""

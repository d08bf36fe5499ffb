"""Why dmremap refuses something, and how an answer comes about."""

"""The words of the lab: a module for each verb, which reads words and writes what comes of them."""

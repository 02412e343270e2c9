"""The pictures of docs/, each from data that stands in the repository."""

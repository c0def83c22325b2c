"""Tests of the importer. They need neither root nor a network."""

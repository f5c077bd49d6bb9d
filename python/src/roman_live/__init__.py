"""Runs a home: devices over MQTT, HTTP and commands behind `roman`, with an HTTP API and a page.

It calls the program through `roman_client`. Nothing of it is proved.
"""

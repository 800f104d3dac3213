"""by_mqtt: messages by a broker of MQTT, with QoS 1."""
from __future__ import annotations

import argparse
import sys
from typing import Callable

import paho.mqtt.client as mqtt

PORT = 1883


def client_of(given: argparse.Namespace, name: str) -> mqtt.Client:
    """A client that the broker keeps a session for, and that connects again when it is cut off."""
    client = mqtt.Client(client_id=name, clean_session=False)
    if given.user:
        client.username_pw_set(given.user, given.password.read_text().strip())
    client.reconnect_delay_set(1, 5)
    return client


class Publisher:
    """Sends again what has no answer. `acknowledged` has the ids of messages that have one."""

    def __init__(self, given: argparse.Namespace) -> None:
        self._topic, self.acknowledged = given.topic, set()
        self._client = client_of(given, "follow-" + given.topic.replace("/", "-"))
        # ids of messages: paho's own `is_published` raises for what is only queued
        self._client.on_publish = lambda client, data, mid: self.acknowledged.add(mid)
        self._client.max_queued_messages_set(0)
        self._client.connect_async(given.host, given.port or PORT, keepalive=20)
        self._client.loop_start()

    def publish(self, message: bytes) -> int:
        """Returns the message's id."""
        return self._client.publish(self._topic, message, qos=1).mid

    def step(self) -> None:
        """Nothing: a thread of paho sends."""


class Subscriber:
    """Hands over what comes."""

    def __init__(self, given: argparse.Namespace, hand: Callable[[str, bytes], None]) -> None:
        self._given = given
        self._client = client_of(given, given.name)
        self._client.on_connect, self._client.on_subscribe = self._connected, self._subscribed
        # acknowledged when this returns, and not when it raises
        self._client.on_message = lambda client, data, it: hand(it.topic, it.payload)

    def _connected(self, client, data, flags, code) -> None:
        if code:
            print("push: the broker refused us: %s" % mqtt.connack_string(code), file=sys.stderr,
                  flush=True)
        client.subscribe(self._given.topic, qos=1)

    def _subscribed(self, *_) -> None:
        if self._given.verbose:
            print("subscribed to %s" % self._given.topic, flush=True)

    def run(self) -> None:
        given = self._given
        self._client.connect_async(given.host, given.port or PORT, keepalive=60)
        self._client.loop_forever(retry_first_connection=True)

#!/usr/bin/env python3
"""Writes a large .proto file to standard output.

usage: make_proto.py MEGABYTES [whole|read|notes]

`whole` uses the whole language, as schemas in the field do: comments, options, nested messages, enums
and services. `read` has messages of plain fields, which have most locations a byte. `notes` has messages
of fields with comments, which are most of its bytes.
"""
import sys

WHOLE = '''
// Account number {n} of the directory, as the billing service stores it.
// It is never deleted, only marked.
message Account{n} {{
  option (acme.audit.table) = "accounts_{n}";

  enum State {{
    STATE_UNSPECIFIED = 0;
    STATE_ACTIVE = 1;
    STATE_SUSPENDED = 2;  // by hand
  }}

  /* The address, as the customer
   * wrote it. */
  message Address {{
    repeated string lines = 1;
    optional string postal_code = 2 [deprecated = true];
    .google.type.LatLng position = 3;
  }}

  string name = 1 [json_name = "displayName"];
  State state = 2;
  int64 created_at_micros = 3;
  map<string, Address> addresses = 4;
  oneof owner {{
    string person_id = 5;
    acme.directory.Organisation organisation = 6;
  }}
  repeated double balances = 7 [packed = true, (acme.units) = {{ currency: "EUR" scale: 1e-2 }}];
  reserved 8 to 15, 0x20;
}}

service AccountService{n} {{
  // Fetches one account.
  rpc GetAccount(GetAccountRequest) returns (Account{n});
  rpc WatchAccounts(stream WatchRequest) returns (stream Account{n}) {{}}
}}
'''

READ = '''
// Account number {n} of the directory, as the billing service stores it.
message Account{n} {{
  string name = 1;
  acme.directory.State state = 2;
  int64 created_at_micros = 3;
  .google.type.LatLng position = 4;
  double balance = 5;  // in euros

  // The owner, if there is one.
  acme.directory.Organisation organisation = 6;
}}
'''

NOTES = '''
// The state of shipment {n}, as the carrier reports it. A shipment is made when an order is
// packed, and is never deleted.
//
// See also the guide on deliveries.
message Shipment{n} {{
  // The name of the resource, in the form `shipments/{{shipment}}`.
  // The server assigns it.
  string name = 1;

  // Where the shipment is to go. It can be changed until the carrier has taken it over.
  Address target = 2;

  int64 weight_grams = 3;  // with the packaging

  // Set when the carrier has taken the shipment over.
  // Output only.
  google.protobuf.Timestamp taken_over_at = 4;

  /* The places that it passed, the latest first. At most a hundred are kept. */
  repeated Place places = 5;

  // The price, without taxes, in the currency of the order.

  // If the carrier hasn't told its price yet, this is an estimate.
  Money price = 6;  // Required.
}}
'''

BLOCKS = {'whole': WHOLE, 'read': READ, 'notes': NOTES}


def main():
    wanted = int(float(sys.argv[1]) * 1_000_000)
    block = BLOCKS[sys.argv[2] if len(sys.argv) > 2 else 'whole']
    out = sys.stdout
    head = 'syntax = "proto3";\n\nimport "google/type/latlng.proto";\n'
    written = out.write(head)
    n = 0
    while written < wanted:
        written += out.write(block.format(n=n))
        n += 1


if __name__ == '__main__':
    main()

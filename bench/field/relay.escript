#!/usr/bin/env escript
%% A relay of another make: the diameter application of Erlang/OTP, between who connects to it and one server: PORT SERVER [NAME HOST], with
%% the name of this relay and of the server.
-module(relay).
-export([peer_up/3, peer_down/3, pick_peer/4, prepare_request/3, prepare_retransmit/3, handle_answer/4, handle_error/4, handle_request/3]).
-mode(compile).

main([Port, Server]) -> main([Port, Server, "r1.example", "f1.example"]);
main([Port, Server, Name, Host]) ->
    persistent_term:put(server, Host),
    ok = diameter:start(),
    ok = diameter:start_service(?MODULE, [
        {'Origin-Host', Name},
        {'Origin-Realm', "relay.example"},
        {'Host-IP-Address', [{127, 0, 0, 1}]},
        {'Vendor-Id', 0},
        {'Product-Name', "OTP"},
        {'Auth-Application-Id', [16#ffffffff]},
        {string_decode, false},
        {application, [{alias, relay}, {dictionary, diameter_gen_relay}, {module, ?MODULE}, {call_mutates_state, false}]}
    ]),
    tcp(connect, [{raddr, {127, 0, 0, 1}}, {rport, list_to_integer(Server)}]),
    tcp(listen, [{ip, {127, 0, 0, 1}}, {port, list_to_integer(Port)}]),
    receive after infinity -> ok end.

tcp(Kind, Config) ->
    {ok, _} = diameter:add_transport(?MODULE, {Kind, [
        {transport_module, diameter_tcp},
        {transport_config, [{reuseaddr, true}, {nodelay, true} | Config]},
        {connect_timer, 500}
    ]}).

peer_up(_, _, State) -> State.
peer_down(_, _, State) -> State.
pick_peer(Peers, _, _, _) ->
    Server = persistent_term:get(server),
    case [Peer || {_, Caps} = Peer <- Peers, {_, Host} <- [text(element(2, Caps))], Host =:= Server] of
        [Peer | _] -> {ok, Peer};
        [] -> false
    end.
text({Own, Other}) -> {Own, unicode:characters_to_list(Other)}.
prepare_request(Packet, _, _) -> {send, Packet}.
prepare_retransmit(Packet, _, _) -> {send, Packet}.
handle_answer(Packet, _, _, _) -> Packet.
handle_error(Reason, _, _, _) -> {error, Reason}.
handle_request(_, _, _) -> {relay, []}.

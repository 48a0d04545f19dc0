# The program that ./adx proved and built, as a user of its own, with a volume for the journals. Nothing is proved or compiled here.
#
#     ./adx --prove
#     docker build -f Containerfile -t adx .
#     docker run --rm -i -v adx-days:/days adx day --journal 2025-03-01.journal < examples/first.day
#     docker run --rm -i -v adx-days:/days --entrypoint tee adx market.roster < examples/market.roster
#     docker run --rm --init --network host -v adx-days:/days adx serve --roster market.roster --journal served.journal --port 8080 --workers 4
#
# The bidder of that roster is at port 8001 of the machine: ./adx bid --prices examples/market.prices --port 8001.
# serve listens on 127.0.0.1 alone, so it shares the network of the machine, or of the proxy before it. Its day ends in order by a file:
# docker exec CONTAINER touch /days/served.journal.stop. With --init a signal ends it at once; as the
# first process of a container it would be ended by force alone. What was answered is in the journal in each case.
FROM debian:stable-slim
RUN useradd --uid 10001 adx && install -d -o adx -g adx -m 700 /days
COPY crates/adx/out/adx /usr/local/bin/adx
USER adx
WORKDIR /days
VOLUME /days
ENTRYPOINT ["adx"]

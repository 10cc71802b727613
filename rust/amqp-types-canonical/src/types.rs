//! The types.

/// A type, by its name in the program `amqp_canon`.
#[repr(u32)]
#[derive(Clone, Copy, Debug, PartialEq, Eq, Hash)]
#[non_exhaustive]
pub enum Type {
    /// `accepted`
    Accepted = 1,
    /// `amqp-sequence`
    AmqpSequence = 2,
    /// `amqp-value`
    AmqpValue = 3,
    /// `annotations`
    Annotations = 4,
    /// `application-properties`
    ApplicationProperties = 5,
    /// `attach`
    Attach = 6,
    /// `batch-data`
    BatchData = 7,
    /// `batch-sequence`
    BatchSequence = 8,
    /// `begin`
    Begin = 9,
    /// `body`
    Body = 10,
    /// `boolean`
    Boolean = 11,
    /// `close`
    Close = 12,
    /// `coordinator`
    Coordinator = 13,
    /// `data`
    Data = 14,
    /// `declare`
    Declare = 15,
    /// `declared`
    Declared = 16,
    /// `delete-on-close`
    DeleteOnClose = 17,
    /// `delete-on-no-links`
    DeleteOnNoLinks = 18,
    /// `delete-on-no-links-or-messages`
    DeleteOnNoLinksOrMessages = 19,
    /// `delete-on-no-messages`
    DeleteOnNoMessages = 20,
    /// `delivery-annotations`
    DeliveryAnnotations = 21,
    /// `delivery-state`
    DeliveryState = 22,
    /// `detach`
    Detach = 23,
    /// `discharge`
    Discharge = 24,
    /// `disposition`
    Disposition = 25,
    /// `end`
    End = 26,
    /// `error`
    Error = 27,
    /// `error-condition`
    ErrorCondition = 28,
    /// `flow`
    Flow = 29,
    /// `footer`
    Footer = 30,
    /// `header`
    Header = 31,
    /// `lifetime-policy`
    LifetimePolicy = 32,
    /// `message`
    Message = 33,
    /// `message-annotations`
    MessageAnnotations = 34,
    /// `message-batch`
    MessageBatch = 35,
    /// `message-data`
    MessageData = 36,
    /// `message-id`
    MessageId = 37,
    /// `message-value`
    MessageValue = 38,
    /// `modified`
    Modified = 39,
    /// `open`
    Open = 40,
    /// `outcome`
    Outcome = 41,
    /// `performative`
    Performative = 42,
    /// `properties`
    Properties = 43,
    /// `received`
    Received = 44,
    /// `rejected`
    Rejected = 45,
    /// `released`
    Released = 46,
    /// `sasl-challenge`
    SaslChallenge = 47,
    /// `sasl-init`
    SaslInit = 48,
    /// `sasl-mechanisms`
    SaslMechanisms = 49,
    /// `sasl-outcome`
    SaslOutcome = 50,
    /// `sasl-response`
    SaslResponse = 51,
    /// `simple-value`
    SimpleValue = 52,
    /// `source`
    Source = 53,
    /// `strict-message`
    StrictMessage = 54,
    /// `strict-message-batch`
    StrictMessageBatch = 55,
    /// `strict-message-data`
    StrictMessageData = 56,
    /// `strict-message-value`
    StrictMessageValue = 57,
    /// `target`
    Target = 58,
    /// `target-archetype`
    TargetArchetype = 59,
    /// `transactional-state`
    TransactionalState = 60,
    /// `transfer`
    Transfer = 61,
    /// `value`
    Value = 62,
}

/// Every type with its name, in the order of the numbers.
static NAMES: &[(&str, Type)] = &[
    ("accepted", Type::Accepted),
    ("amqp-sequence", Type::AmqpSequence),
    ("amqp-value", Type::AmqpValue),
    ("annotations", Type::Annotations),
    ("application-properties", Type::ApplicationProperties),
    ("attach", Type::Attach),
    ("batch-data", Type::BatchData),
    ("batch-sequence", Type::BatchSequence),
    ("begin", Type::Begin),
    ("body", Type::Body),
    ("boolean", Type::Boolean),
    ("close", Type::Close),
    ("coordinator", Type::Coordinator),
    ("data", Type::Data),
    ("declare", Type::Declare),
    ("declared", Type::Declared),
    ("delete-on-close", Type::DeleteOnClose),
    ("delete-on-no-links", Type::DeleteOnNoLinks),
    ("delete-on-no-links-or-messages", Type::DeleteOnNoLinksOrMessages),
    ("delete-on-no-messages", Type::DeleteOnNoMessages),
    ("delivery-annotations", Type::DeliveryAnnotations),
    ("delivery-state", Type::DeliveryState),
    ("detach", Type::Detach),
    ("discharge", Type::Discharge),
    ("disposition", Type::Disposition),
    ("end", Type::End),
    ("error", Type::Error),
    ("error-condition", Type::ErrorCondition),
    ("flow", Type::Flow),
    ("footer", Type::Footer),
    ("header", Type::Header),
    ("lifetime-policy", Type::LifetimePolicy),
    ("message", Type::Message),
    ("message-annotations", Type::MessageAnnotations),
    ("message-batch", Type::MessageBatch),
    ("message-data", Type::MessageData),
    ("message-id", Type::MessageId),
    ("message-value", Type::MessageValue),
    ("modified", Type::Modified),
    ("open", Type::Open),
    ("outcome", Type::Outcome),
    ("performative", Type::Performative),
    ("properties", Type::Properties),
    ("received", Type::Received),
    ("rejected", Type::Rejected),
    ("released", Type::Released),
    ("sasl-challenge", Type::SaslChallenge),
    ("sasl-init", Type::SaslInit),
    ("sasl-mechanisms", Type::SaslMechanisms),
    ("sasl-outcome", Type::SaslOutcome),
    ("sasl-response", Type::SaslResponse),
    ("simple-value", Type::SimpleValue),
    ("source", Type::Source),
    ("strict-message", Type::StrictMessage),
    ("strict-message-batch", Type::StrictMessageBatch),
    ("strict-message-data", Type::StrictMessageData),
    ("strict-message-value", Type::StrictMessageValue),
    ("target", Type::Target),
    ("target-archetype", Type::TargetArchetype),
    ("transactional-state", Type::TransactionalState),
    ("transfer", Type::Transfer),
    ("value", Type::Value),
];

impl Type {
    /// Returns every type with its name.
    pub fn all() -> impl Iterator<Item = (&'static str, Type)> {
        NAMES.iter().copied()
    }

    /// Returns the type with this name, as `"open"`.
    ///
    /// ```
    /// use amqp_types_canonical::Type;
    ///
    /// assert_eq!(Type::from_name("message-data"), Some(Type::MessageData));
    /// assert_eq!(Type::from_name("opened"), None);
    /// ```
    pub fn from_name(name: &str) -> Option<Type> {
        // SAFETY: the pointer and the length are those of one slice.
        let number = unsafe { crate::sys::amqp_c_type(name.as_ptr(), name.len()) };
        Type::of_number(number)
    }

    /// Returns the type with this number.
    pub(crate) fn of_number(number: u32) -> Option<Type> {
        let place = usize::try_from(number).ok()?.checked_sub(1)?;
        NAMES.get(place).map(|row| row.1)
    }

    /// Returns its name.
    pub fn name(self) -> &'static str {
        NAMES[self as usize - 1].0
    }

    /// Returns the type whose values have the descriptor with this code (Part 1, section 1.5). A sum of types has none, nor has a message.
    ///
    /// ```
    /// use amqp_types_canonical::Type;
    ///
    /// assert_eq!(Type::of_descriptor(0x12), Some(Type::Attach));
    /// assert_eq!(Type::of_descriptor(0), None);
    /// ```
    pub fn of_descriptor(code: u64) -> Option<Type> {
        // SAFETY: the call takes and returns numbers alone.
        let number = unsafe { crate::sys::amqp_c_type_of_descriptor(code) };
        Type::of_number(number)
    }

    /// Returns the standard's name of the field with this number, counted from 0, of a composite's type.
    ///
    /// ```
    /// use amqp_types_canonical::Type;
    ///
    /// assert_eq!(Type::Attach.field_name(5).as_deref(), Some("source"));
    /// assert_eq!(Type::Attach.field_name(14), None);
    /// ```
    pub fn field_name(self, index: usize) -> Option<String> {
        let mut name = [0; 32];
        // SAFETY: the pointer and the length are those of one slice that nothing else refers to.
        let len = unsafe { crate::sys::amqp_c_field_name(self as u32, index, name.as_mut_ptr(), name.len()) };
        if len == 0 {
            return None;
        }
        Some(String::from_utf8_lossy(&name[..len.min(name.len())]).into_owned())
    }
}
